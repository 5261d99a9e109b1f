//! A solver for the questions that the verified one answers, written independently and by other means: columns are
//! sparse, monomials are found by their exponents, and products are taken in one at a time.

pub mod certificate;
pub mod elimination;
pub mod entries;
pub mod equations;
pub mod field;
pub mod monomials;
pub mod script;
pub mod solver;
