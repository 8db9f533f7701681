//! What a datagram is, in numbers. Both sides read and write the same.

/// The kinds of datagrams.
pub const ACKNOWLEDGEMENT: u8 = 0;
pub const OPERATION: u8 = 1;
pub const ENTRY: u8 = 2;
pub const REVISION: u8 = 3;
pub const NEW: u8 = 4;
pub const TEXT: u8 = 5;

/// A field that a datagram has not is 0. The layout is that of the static library.
#[repr(C)]
#[derive(Clone, Copy, Debug, Default, PartialEq, Eq)]
pub struct DatagramRow {
    pub kind: u8,
    /// What an operation or an entry does, as in a row.
    pub change: u8,
    /// Of an entry or a text.
    pub site: u8,
    pub connection: u32,
    /// Of an acknowledgement, the last that was taken.
    pub number: u32,
    /// Of an entry, its place.
    pub revision: u32,
    pub place: u32,
    pub letter: u32,
    pub performed: u32,
    /// How many letters a text has.
    pub letters: usize,
}

/// A datagram with the letters of a text, and the site of each.
#[derive(Clone, Debug, Default, PartialEq, Eq)]
pub struct Said {
    pub row: DatagramRow,
    pub letters: Vec<u32>,
    pub sites: Vec<u8>,
}
