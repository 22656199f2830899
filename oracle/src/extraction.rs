//! What `build.rs` took from the reference, piece by piece, for the test that compares it with `docs/src`.

/// A row of lines of the compiled file: either taken from `source` as one contiguous block, or one line written by
/// `build.rs`.
#[derive(Clone, Copy, Debug)]
pub struct Piece {
    pub source: Option<&'static str>,
    pub text: &'static str,
}

include!(concat!(env!("OUT_DIR"), "/pieces.rs"));

/// The compiled file as it is.
pub const COMPILED: &str = include_str!(concat!(env!("OUT_DIR"), "/reference.rs"));

/// The rows of the opcode table that the record generator uses, as they are.
pub const OPCODE_ROWS: &str = include_str!(concat!(env!("OUT_DIR"), "/opcodes.rs"));

/// Where the reference lies, seen from the package.
pub const SOURCE_DIR: &str = "../docs/src/crates/maxwell/src";
