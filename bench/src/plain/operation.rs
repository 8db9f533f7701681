//! Operations, and what one becomes when another was done first.

/// How many entries a history can have.
pub const MOST_ENTRIES: u32 = 4_294_967_294;

#[derive(Clone, Copy, Debug, PartialEq, Eq)]
pub enum Operation {
    Nothing { site: u8 },
    Insert { site: u8, place: u32, letter: u32 },
    Delete { site: u8, place: u32 },
}

/// An operation of the history, with its place there.
#[derive(Clone, Copy, Debug, PartialEq, Eq)]
pub struct Entry {
    pub place: u32,
    pub operation: Operation,
}

impl Operation {
    pub fn site(self) -> u8 {
        match self {
            Operation::Nothing { site }
            | Operation::Insert { site, .. }
            | Operation::Delete { site, .. } => site,
        }
    }

    /// What it becomes when `other` was done first.
    pub fn past(self, other: Operation) -> Operation {
        use Operation::{Delete, Insert, Nothing};
        match (self, other) {
            (
                Insert {
                    site,
                    place,
                    letter,
                },
                Insert {
                    site: rival,
                    place: at,
                    ..
                },
            ) => Insert {
                site,
                place: if at < place || (at == place && rival < site) {
                    place.saturating_add(1)
                } else {
                    place
                },
                letter,
            },
            (
                Insert {
                    site,
                    place,
                    letter,
                },
                Delete { place: gone, .. },
            ) => Insert {
                site,
                place: place - u32::from(gone < place),
                letter,
            },
            (Delete { site, place }, Insert { place: at, .. }) => Delete {
                site,
                place: if at <= place {
                    place.saturating_add(1)
                } else {
                    place
                },
            },
            (Delete { site, place }, Delete { place: gone, .. }) if gone == place => {
                Nothing { site }
            }
            (Delete { site, place }, Delete { place: gone, .. }) => Delete {
                site,
                place: place - u32::from(gone < place),
            },
            (Nothing { .. }, _) | (_, Nothing { .. }) => self,
        }
    }
}

/// Passes one through a list, which is past it from then on, and gives what it has become.
pub fn pass<'a>(one: Operation, list: impl Iterator<Item = &'a mut Operation>) -> Operation {
    let mut one = one;
    for other in list {
        (*other, one) = (other.past(one), one.past(*other));
    }
    one
}
