//! The proved reading and writing of datagrams, over the functions that the static library exports.

use crate::datagram_row::{DatagramRow, Said};
use crate::event::{Event, Outcome};

#[rustfmt::skip]
extern "C" {
    fn measured_read_at_server(bytes: *const u8, count: usize, row: *mut DatagramRow) -> bool;

    fn measured_read_at_client(
        bytes: *const u8, count: usize, row: *mut DatagramRow, letters: *mut u32, room: usize, sites: *mut u8, site_room: usize,
    ) -> bool;

    fn measured_write(
        row: DatagramRow, letters: *const u32, count: usize, sites: *const u8, site_count: usize, to: *mut u8, room: usize,
    ) -> usize;

    fn measured_read_hexadecimal(text: *const u8, count: usize, to: *mut u8, room: usize) -> bool;

    fn measured_write_hexadecimal(bytes: *const u8, count: usize, to: *mut u8, room: usize) -> bool;

    fn measured_is_read(bytes: *const u8, count: usize) -> bool;

    fn measured_count(
        row: DatagramRow, letters: *const u32, count: usize, sites: *const u8, site_count: usize,
    ) -> usize;

    fn measured_write_often(bytes: *const u8, count: usize, times: u32) -> usize;

    fn measured_client_end(
        highest: u32, events: *const Event, count: usize, outcomes: *mut Outcome, room: usize,
    ) -> bool;

    fn measured_server_end(events: *const Event, count: usize, outcomes: *mut Outcome, room: usize) -> bool;
}

/// What stands where nothing is written.
const BLANK: u8 = 0xee;

const BLANK_ROW: DatagramRow = DatagramRow {
    kind: BLANK,
    change: BLANK,
    site: BLANK,
    connection: 1,
    number: 2,
    revision: 3,
    place: 4,
    letter: 5,
    performed: 6,
    letters: 7,
};

/// How many bytes a packet has beside a text's letters, at most, and how many a letter has.
const MOST: usize = 29;
const WIDTH: usize = 5;

/// The bytes of what is said, if it can be.
pub fn write(said: &Said) -> Option<Vec<u8>> {
    let Said {
        row,
        letters,
        sites,
    } = said;
    let mut bytes = vec![BLANK; MOST + WIDTH * letters.len() + 1];
    // Safe, here and below: the library reads and writes the parts as it is told, and keeps none.
    let count = unsafe {
        measured_write(
            *row,
            letters.as_ptr(),
            letters.len(),
            sites.as_ptr(),
            sites.len(),
            bytes.as_mut_ptr(),
            bytes.len(),
        )
    };
    assert!(bytes[count..].iter().all(|&byte| byte == BLANK));
    bytes.truncate(count);
    (count > 0).then_some(bytes)
}

/// What bytes say that came to the server.
pub fn read_at_server(bytes: &[u8]) -> Option<DatagramRow> {
    let mut row = BLANK_ROW;
    let is_read = unsafe { measured_read_at_server(bytes.as_ptr(), bytes.len(), &raw mut row) };
    assert!(is_read || row == BLANK_ROW);
    is_read.then_some(row)
}

/// What bytes say that came to a client.
pub fn read_at_client(bytes: &[u8]) -> Option<Said> {
    let room = bytes.len() / WIDTH;
    let (mut letters, mut sites) = (vec![u32::MAX; room], vec![BLANK; room]);
    let mut row = BLANK_ROW;
    let is_read = read_into(bytes, &mut row, &mut letters, &mut sites);
    assert!(is_read || row == BLANK_ROW);
    let count = if is_read { row.letters } else { 0 };
    assert!(letters[count..].iter().all(|&letter| letter == u32::MAX));
    assert!(sites[count..].iter().all(|&site| site == BLANK));
    letters.truncate(count);
    sites.truncate(count);
    is_read.then_some(Said {
        row,
        letters,
        sites,
    })
}

/// Reads what came to a client, and takes the letters out of it.
pub fn read_into(
    bytes: &[u8],
    row: &mut DatagramRow,
    letters: &mut [u32],
    sites: &mut [u8],
) -> bool {
    unsafe {
        measured_read_at_client(
            bytes.as_ptr(),
            bytes.len(),
            row,
            letters.as_mut_ptr(),
            letters.len(),
            sites.as_mut_ptr(),
            sites.len(),
        )
    }
}

/// Reads what came to a client, and leaves it where it is.
pub fn is_read(bytes: &[u8]) -> bool {
    unsafe { measured_is_read(bytes.as_ptr(), bytes.len()) }
}

/// Writes what is said, and gives how many bytes it has.
pub fn count(said: &Said) -> usize {
    let Said {
        row,
        letters,
        sites,
    } = said;
    unsafe {
        measured_count(
            *row,
            letters.as_ptr(),
            letters.len(),
            sites.as_ptr(),
            sites.len(),
        )
    }
}

/// Reads what came to a client, and writes it so often. Gives how many bytes it has.
pub fn write_often(bytes: &[u8], times: u32) -> usize {
    unsafe { measured_write_often(bytes.as_ptr(), bytes.len(), times) }
}

/// Bytes as hexadecimal text.
pub fn write_hexadecimal(bytes: &[u8]) -> Option<Vec<u8>> {
    let mut text = vec![BLANK; 2 * bytes.len()];
    let is_done = unsafe {
        measured_write_hexadecimal(bytes.as_ptr(), bytes.len(), text.as_mut_ptr(), text.len())
    };
    is_done.then_some(text)
}

/// The bytes of hexadecimal text.
pub fn read_hexadecimal(text: &[u8]) -> Option<Vec<u8>> {
    let mut bytes = vec![BLANK; text.len() / 2];
    let is_done = unsafe {
        measured_read_hexadecimal(text.as_ptr(), text.len(), bytes.as_mut_ptr(), bytes.len())
    };
    assert!(is_done || bytes.iter().all(|&byte| byte == BLANK));
    is_done.then_some(bytes)
}

/// What comes of events at the end of a client that once took that connection.
pub fn client_end(highest: u32, events: &[Event]) -> Vec<Outcome> {
    let mut outcomes = vec![Outcome::default(); events.len()];
    let (from, to) = (events.as_ptr(), outcomes.as_mut_ptr());
    let is_done = unsafe { measured_client_end(highest, from, events.len(), to, events.len()) };
    assert!(is_done, "memory is wanting");
    outcomes
}

/// The same at the server's end.
pub fn server_end(events: &[Event]) -> Vec<Outcome> {
    let mut outcomes = vec![Outcome::default(); events.len()];
    let (from, to) = (events.as_ptr(), outcomes.as_mut_ptr());
    let is_done = unsafe { measured_server_end(from, events.len(), to, events.len()) };
    assert!(is_done, "memory is wanting");
    outcomes
}
