//! The proved server and client, over the functions that the static library exports.

pub mod line;

use crate::row::Row;
use crate::screen::Screen;

/// Rows, letters and sites, each part by its first and how many there are.
type Parts = (*const Row, usize, *mut u32, usize, *mut u8, usize);

#[rustfmt::skip]
extern "C" {
    fn measured_server(
        rows: *const Row, count: usize, letters: *mut u32, room: usize, sites: *mut u8, site_room: usize,
    ) -> bool;

    fn measured_client(
        site: u8, rows: *const Row, count: usize, letters: *mut u32, room: usize, sites: *mut u8, site_room: usize,
    ) -> bool;
}

/// Shows a new server's text after the rows. The answer is false where memory is wanting.
pub fn server(rows: &[Row], screen: &mut Screen) -> bool {
    let (rows, count, letters, room, sites, site_room) = parts(rows, screen);
    // Safe: the library reads the one part and writes the others, as it is told, and keeps none.
    unsafe { measured_server(rows, count, letters, room, sites, site_room) }
}

/// The same of a new client at the site.
pub fn client(site: u8, rows: &[Row], screen: &mut Screen) -> bool {
    let (rows, count, letters, room, sites, site_room) = parts(rows, screen);
    // Safe for the same reason.
    unsafe { measured_client(site, rows, count, letters, room, sites, site_room) }
}

fn parts(rows: &[Row], screen: &mut Screen) -> Parts {
    let Screen { letters, sites } = screen;
    (
        rows.as_ptr(),
        rows.len(),
        letters.as_mut_ptr(),
        letters.len(),
        sites.as_mut_ptr(),
        sites.len(),
    )
}
