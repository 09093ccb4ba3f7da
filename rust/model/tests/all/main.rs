//! Tests of the model against 01's figures, rules, refusals and faults.

mod commands;
mod common;
mod corners;
mod faults;
mod figures;
mod history;
mod layout;
mod presets;
mod reading;
mod refusals;
mod saved;
mod sending;
mod sessions;
mod stored;
mod walking;
