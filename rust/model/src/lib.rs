//! A plain model of document 01: one framed 64 kbit/s channel with its service channel.
//!
//! The model computes everything from 01's definitions, bit by bit, and keeps no table that another
//! implementation could share with it. It is meant as a yardstick: first right, then readable, then fast.
//! Letters with a number, such as S9 or R26, name entries of the list of decisions.

pub mod bas;
pub mod bits;
pub mod codes;
pub mod corners;
pub mod crc;
pub mod fault;
pub mod forge;
pub mod frame;
pub mod listing;
pub mod preset;
pub mod random;
pub mod reader;
pub mod recording;
pub mod refusal;
pub mod saved;
pub mod sender;
pub mod service;
pub mod show;
pub mod slots;
pub mod text;
