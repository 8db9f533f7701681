//! What is shown of a text.

/// Letters longer than any text can be.
const ROOM: usize = 65_793;

/// The letters of a text, the site of each, and 0 behind them.
#[derive(Clone, Debug, PartialEq, Eq)]
pub struct Screen {
    pub letters: Vec<u32>,
    pub sites: Vec<u8>,
}

impl Screen {
    pub fn empty() -> Screen {
        Screen {
            letters: vec![0; ROOM],
            sites: vec![0; ROOM],
        }
    }
}
