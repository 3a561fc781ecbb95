//! A reader and writer of SKilL ledgers, written from the paper alone.
//!
//! It is what the proved library is held against, so it shares nothing with
//! it: no code, no tables, no ideas of how to go about it. The six calls are
//! [`check`], [`objects`], [`count_values`], [`fill_values`], [`listing`] and
//! [`build`]; they work over lent memory and leave it as the paper says.
//! [`generate`] makes the files and listings to compare with, [`big`] the ones
//! to measure with.

#![forbid(unsafe_code)]

pub mod big;
pub mod bounds;
mod builder;
mod calls;
mod column;
mod cursor;
pub mod draft;
pub mod examples;
pub mod generate;
pub mod kind;
pub mod ledger;
mod listing;
mod mixing;
pub mod names;
mod page;
mod pools;
pub mod programs;
pub mod questions;
pub mod reader;
pub mod refusal;
pub mod sink;
pub mod tally;
mod text;
pub mod v64;
mod values;
pub mod vectors;

pub use calls::{build, check, count_values, fill_values, listing, objects};
pub use refusal::Refusal;
