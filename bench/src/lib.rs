//! The benchmark of the proved lister: beside two Rust implementations, on families of formulas.

#![deny(unsafe_code)]

pub mod deficiencies;
pub mod families;
pub mod growth;
pub mod listers;
pub mod measure;
pub mod once;
pub mod pages;
#[allow(unsafe_code)]
pub mod stack;
pub mod table;
pub mod waits;
pub mod weights;
