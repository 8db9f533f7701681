//! What is asked of a server or a client, in numbers. Both sides read the same rows.

/// The kinds of operations: those that a server takes, and those of the entries that a client sees.
pub const NOTHING: u8 = 0;
pub const INSERT: u8 = 1;
pub const DELETE: u8 = 2;

/// Asked of a server: a client joins.
pub const JOIN: u8 = 3;

/// Asked of a client: it puts a letter in, or takes one away.
pub const TYPE: u8 = 3;
pub const STRIKE: u8 = 4;

/// The layout is that of the static library.
#[repr(C)]
#[derive(Clone, Copy, Debug, Default, PartialEq, Eq)]
pub struct Row {
    pub kind: u8,
    pub site: u8,
    /// Of an operation, how far its client had come; of an entry, its place in the history.
    pub revision: u32,
    pub place: u32,
    pub letter: u32,
}

impl Row {
    /// A client joins that wants this site.
    pub fn join(site: u8) -> Row {
        Row {
            kind: JOIN,
            site,
            ..Row::default()
        }
    }
}
