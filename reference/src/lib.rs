//! Models of the consensus library, written from FIPS 180-4, the report of
//! 4 December 2024 (source document 001) and documents 01 and 02 alone. The
//! program beside them compares the library with these models. november.rs is
//! written from the report's text of 19 November 2024 (source document 000), and
//! is compared with meaning.rs.

pub mod damage;
pub mod fields;
pub mod graph;
pub mod handed_in;
pub mod layout;
pub mod library;
pub mod meaning;
pub mod message;
pub mod november;
pub mod random;
pub mod refusal;
pub mod round;
pub mod sha256;
pub mod sites;
pub mod tampering;
pub mod trail;
