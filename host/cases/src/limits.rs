//! The limits of document 02's E9, said once for all cases and tests; the model, quick and the archive have their own.

/// Rules 1 and 2: the most bytes and the most LF bytes that a file may have.
pub const MOST_BYTES: usize = 134_217_728;
pub const MOST_LINES: usize = 1_048_576;

/// The most records that have a version 1 index.
pub const MOST_OF_VERSION_1: usize = 65_535;
