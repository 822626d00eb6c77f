//! The proved library against the reference, call by call: both get the same input, and every number, every byte of a room and
//! every field of a record that comes back must be the same. The cases are pseudo-random, each from the seed, its kind and its
//! index alone, so that one can be run again by itself.

pub mod border;
pub mod calls;
pub mod draw;
pub mod gathered;
pub mod library;
pub mod run;
pub mod sessions;
pub mod slips;
pub mod writes;
