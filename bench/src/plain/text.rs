//! A text: its letters, and beside them the site of each.

use super::operation::Operation;
use super::Refusal;

/// How many letters a record has at most.
pub const RECORD: usize = 65_536;

const LAST_LETTER: u32 = 1_114_111;

pub struct Text {
    letters: Vec<u32>,
    sites: Vec<u8>,
    room: usize,
}

impl Text {
    pub fn with_room(room: usize) -> Text {
        Text {
            letters: Vec::with_capacity(room),
            sites: Vec::with_capacity(room),
            room,
        }
    }

    pub fn letters(&self) -> &[u32] {
        &self.letters
    }

    pub fn sites(&self) -> &[u8] {
        &self.sites
    }

    /// Why an operation is refused, if it is, where there may be up to `limit` letters.
    pub fn check(&self, operation: Operation, limit: usize) -> Result<(), Refusal> {
        let length = self.letters.len();
        match operation {
            Operation::Insert { letter, .. } if letter == 0 || letter > LAST_LETTER => {
                Err(Refusal::Letter)
            }
            Operation::Insert { place, .. } if place as usize > length => Err(Refusal::Place),
            Operation::Insert { .. } if length >= limit.min(self.room) => Err(Refusal::Full),
            Operation::Delete { place, .. } if place as usize >= length => Err(Refusal::Place),
            _ => Ok(()),
        }
    }

    /// Does an operation, or refuses it and changes nothing.
    pub fn apply(&mut self, operation: Operation, limit: usize) -> Result<(), Refusal> {
        self.check(operation, limit)?;
        match operation {
            Operation::Nothing { .. } => {}
            Operation::Insert {
                site,
                place,
                letter,
            } => {
                put(&mut self.letters, place as usize, letter);
                put(&mut self.sites, place as usize, site);
            }
            Operation::Delete { place, .. } => {
                close(&mut self.letters, place as usize);
                close(&mut self.sites, place as usize);
            }
        }
        Ok(())
    }
}

/// Puts one in before what stands at the place.
fn put<T: Copy>(list: &mut Vec<T>, place: usize, one: T) {
    let length = list.len();
    list.push(one);
    list.copy_within(place..length, place + 1);
    list[place] = one;
}

/// Takes away what stands at the place.
fn close<T: Copy>(list: &mut Vec<T>, place: usize) {
    list.copy_within(place + 1.., place);
    list.pop();
}
