//! The tool, run as people run it: each command on good and bad inputs, with exit status, words and files compared.

#[allow(dead_code)]
#[path = "../../../tests/host/sample.rs"]
mod sample;

mod check;
mod dump;
mod hostile;
mod info;
mod kill;
mod papers;
mod recover;
mod running;
mod salvage;
mod two;
