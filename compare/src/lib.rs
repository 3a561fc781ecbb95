//! Holds a reader of ledgers to the second program.
//!
//! Both are asked the same calls over equal memory. Afterwards the answers must be equal, and so must every number that
//! was lent: file or text, names, work table, values, bytes, and the guards around each of them. The proved library is one
//! such reader (it stands in the program, so that this part needs nothing linked); the tests put wrong ones in its place,
//! and each must be noticed.
//!
//! [`files`] has the run over all generated files, [`builds`] the one over texts: every accepted file is built again from
//! its listing, and listings damaged in many ways are refused, or built, as the second program says.

#![forbid(unsafe_code)]

pub mod builds;
pub mod comparison;
pub mod damage;
pub mod files;
pub mod large;
pub mod lent;
pub mod met;
pub mod mutants;
pub mod plan;
pub mod question;
pub mod reader;
pub mod sheet;

#[cfg(test)]
mod wrong;
#[cfg(test)]
mod wrong_builders;
#[cfg(test)]
mod wrong_values;
