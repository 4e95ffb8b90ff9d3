//! The book, a plain model of a sheet (document 01, "The book of demand 3";
//! document 02, request 9).

use crate::text::well_formed;
use crate::{Answer, BLANK, BROKEN_TEXT, NO_SUCH_SLOT, OVERLONG, WORN};
use std::collections::BTreeMap;

/// n pages, all blank at first, and a count, 0 at first.
#[derive(Clone, Debug, PartialEq, Eq)]
pub struct Book {
    pub n: usize,
    /// The pages that hold a caption; every other page below n is blank.
    pub pages: BTreeMap<usize, Vec<u8>>,
    pub count: u32,
}

impl Book {
    /// A book of n blank pages.
    pub fn new(n: usize) -> Book {
        Book {
            n,
            pages: BTreeMap::new(),
            count: 0,
        }
    }

    /// A write, and the number it gives.
    pub fn write(&mut self, slot: usize, caption: &[u8]) -> u8 {
        if slot >= self.n {
            NO_SUCH_SLOT
        } else if caption.len() > 192 {
            OVERLONG
        } else if !well_formed(caption) {
            BROKEN_TEXT
        } else if self.count == 4294967295 {
            WORN
        } else {
            self.pages.insert(slot, caption.to_vec());
            self.count += 1;
            0
        }
    }

    /// A clear, and the number it gives.
    pub fn clear(&mut self, slot: usize) -> u8 {
        if slot >= self.n {
            NO_SUCH_SLOT
        } else {
            self.pages.remove(&slot);
            0
        }
    }

    /// What a read of a slot below n answers, and its window; none for a slot
    /// of n or more, of which the book says nothing.
    pub fn reading(&self, slot: usize) -> Option<(Answer, [u8; 192])> {
        if slot >= self.n {
            return None;
        }
        let mut window = [0; 192];
        match self.pages.get(&slot) {
            None => Some((Answer::refused(BLANK), window)),
            Some(caption) => {
                for (place, byte) in window.iter_mut().zip(caption) {
                    *place = *byte;
                }
                Some((Answer::accepted(caption.len() as u16), window))
            }
        }
    }
}
