//! The library for x86-64, called in C by a server, against the model.

mod comparisons;

type Way = differential::server::Server;
