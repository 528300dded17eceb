//! One module for each layer of the library.

pub mod digest;
pub mod graphs;
pub mod messages;
pub mod rounds;
