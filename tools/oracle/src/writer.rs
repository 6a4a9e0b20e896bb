//! The writer of document 02, requests 2 and 4: a call appends a field to a lent buffer or refuses
//! it.

use crate::score::{Event, Field, LATEST_STAMP, MOST_BYTES};

/// What one call leaves for the next. Every state answers, those that no call leaves, too.
#[derive(Clone, Copy)]
pub struct Writer {
    /// The place reached.
    pub at: u64,
    /// The stamp of the field before, or 0.
    pub last: u32,
    /// The first stamp a write or read may carry: above that of the one before, or 0.
    pub free: u32,
    pub ended: bool,
}

impl Writer {
    /// Before the first field.
    pub const NEW: Self = Self {
        at: 0,
        last: 0,
        free: 0,
        ended: false,
    };

    /// Gives the number of a refusal; buffer and state are then as before.
    pub fn append(&mut self, field: Field, buffer: &mut [u8]) -> Result<(), u8> {
        let Field { stamp, event } = field;
        if self.ended {
            return Err(10);
        }
        if stamp > LATEST_STAMP {
            return Err(8);
        }
        if stamp < self.last {
            return Err(9);
        }
        if event.is_access() && stamp < self.free {
            return Err(14);
        }
        let bytes = field.bytes();
        let after = u128::from(self.at) + bytes.len() as u128;
        if after > MOST_BYTES as u128 {
            return Err(4);
        }
        let Some(room) = buffer.get_mut(self.at as usize..after as usize) else {
            return Err(13);
        };
        room.copy_from_slice(&bytes);
        self.at = after as u64;
        self.last = stamp;
        if event.is_access() {
            self.free = stamp + 1;
        }
        self.ended = matches!(event, Event::End);
        Ok(())
    }
}
