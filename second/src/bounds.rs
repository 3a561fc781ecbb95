//! The paper's bounds. Each number itself is accepted, one more is refused.

/// Bytes of a file.
pub const FILE: usize = 1_048_576;
/// Pairs of a file.
pub const PAIRS: usize = 32;
/// Strings of a file.
pub const STRINGS: usize = 1_024;
/// Types of a file.
pub const TYPES: usize = 32;
/// Fields of a file, all types together.
pub const FIELDS: usize = 128;
/// Objects over all base pools; also the highest count of entries or
/// objects, local start and array length.
pub const OBJECTS: u64 = 65_535;
/// Numbers of the work table that the caller lends.
pub const TABLE: usize = 16_384;
/// Bytes of input the two programs take.
pub const PROGRAM_INPUT: usize = 32_768;
/// Bytes of output the two programs write.
pub const PROGRAM_OUTPUT: usize = 65_536;
