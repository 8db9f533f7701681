//! Why something was not done.

/// Each reason has its number.
/// The ninth, that memory runs out, is not here: the operating system then ends this program.
#[derive(Clone, Copy, Debug, PartialEq, Eq)]
pub enum Refusal {
    Letter = 1,
    Connection = 2,
    Place = 3,
    Pending = 4,
    Revision = 5,
    Entry = 6,
    Full = 7,
    Sites = 8,
}

impl Refusal {
    pub fn number(self) -> u8 {
        self as u8
    }
}
