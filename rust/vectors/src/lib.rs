//! Holds the library and the model to the stored cases of `tests/vectors`, which come from an independent reading of
//! the documents.
//!
//! A [`case`] has what a call is given and what it has to answer. A module of [`kinds`] makes the calls of its kind on a
//! [`subject`], the library or the model, and puts what comes of them as [`told`], which is held to the case field by
//! field. A case that speaks of a request that has not landed is [`unfit`], and that is an error too: nothing is passed
//! over in silence.

pub mod by_library;
pub mod by_model;
pub mod case;
pub mod json;
pub mod kinds;
pub mod octets;
pub mod part;
pub mod run;
pub mod states;
pub mod subject;
pub mod told;
pub mod unfit;
