//! Every contestant against the model, on calls drawn from a seed. Nothing is timed here.

mod inputs;
mod reading;
mod recordings;
mod sending;
mod states;
