//! Makes files for the tests: right ones, and damaged ones. Nothing here asks a reader whether a
//! file is accepted.

// Each program that includes it uses a part of it.
#![allow(dead_code)]

pub mod damage;
pub mod mus;
pub mod rng;
pub mod sap;
pub mod sapdamage;
pub mod sid;
