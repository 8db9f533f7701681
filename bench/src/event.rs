//! What happens at an end of a line, and what comes of it, in numbers. Both sides read and write the same.

use crate::datagram_row::DatagramRow;

/// What happens at either end: a tick, a packet, an acknowledgement; and what is asked of it: the message of a number, the answer to a
/// packet, and how it stands.
pub const TICK: u8 = 0;
pub const PACKET: u8 = 1;
pub const HEAR: u8 = 2;
pub const MESSAGE: u8 = 3;
pub const ANSWER: u8 = 4;
pub const STATE: u8 = 9;

/// A client begins with a connection, has seen an entry, has a message to send.
pub const BEGIN: u8 = 5;
pub const SAW: u8 = 6;
pub const SEND: u8 = 7;

/// The server gives a connection, has taken a message; the history has an entry more; the connection ends.
pub const GIVE: u8 = 5;
pub const TOOK: u8 = 6;
pub const GROW: u8 = 7;
pub const END: u8 = 8;

/// The layouts are those of the static library.
#[repr(C)]
#[derive(Clone, Copy, Debug, Default, PartialEq, Eq)]
pub struct Event {
    pub kind: u8,
    pub datagram: DatagramRow,
}

#[repr(C)]
#[derive(Clone, Copy, Debug, Default, PartialEq, Eq)]
pub struct Outcome {
    /// 0 where nothing comes of it, 3 where it is refused.
    pub answer: u8,
    /// What is sent: so many messages behind that number. Or other numbers.
    pub after: u32,
    pub count: u32,
    pub datagram: DatagramRow,
}

/// Of what is refused.
pub const REFUSED: u8 = 3;
