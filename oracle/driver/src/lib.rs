//! The library's entries beside the judge's answers: for `oracle/compare` and for the fuzz target.

pub mod compare;
pub mod entries;
pub mod library;
pub mod question;
pub mod quick;
pub mod smallest;
