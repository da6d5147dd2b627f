//! The bench tool, used as a person would from a shell.

mod calls;
mod common;
mod damage;
mod files;
mod help;
mod json;
mod pictures;
mod rides;
mod secrets;
