//! The library in this process, called through the wrapper, against the model.

mod comparisons;

type Way = differential::linked::Linked;
