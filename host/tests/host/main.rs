//! The tests of the crate, in one program.

mod actions;
mod cut;
mod folder;
mod hostile;
mod kill;
mod protocol;
mod salvage;
mod sample;
mod script;
mod text;
