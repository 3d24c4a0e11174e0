//! What is timed and counted: each piece makes the same calls on both sides, on the same inputs.

pub mod calls;
pub mod leaves;
pub mod plain;
pub mod tapes;

/// One pass of a side: all calls of a piece, one after the other.
pub type Pass<'a> = &'a mut dyn FnMut();

pub struct Piece<'a> {
    pub name: &'a str,
    /// Calls of one pass.
    pub calls: usize,
    pub original: Pass<'a>,
    pub port: Pass<'a>,
}

/// What is done with each piece.
pub type Each<'a> = &'a mut dyn FnMut(Piece);
