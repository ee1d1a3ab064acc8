//! What the library is compared with, for the tests and the benchmark alone.
//!
//! [`model`] is documents 01 and 02 written down a second time, in plain Rust that shares no code with the library; the
//! tests compare the two, and the benchmark times them.

pub mod command;
pub mod days;
pub mod model;
pub mod random;
pub mod site;
pub mod worked;
