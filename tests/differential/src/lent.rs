//! Memory to lend to the library, with bytes or pages around it that tell
//! when something outside was touched.

use std::ffi::c_void;
use std::ops::Range;
use std::ptr::null_mut;
use std::slice::{from_raw_parts, from_raw_parts_mut};

/// What stands around the lent bytes.
#[derive(Clone, Copy, Debug)]
pub enum Place {
    /// Guard bytes on both sides: a store outside is seen afterwards.
    Guarded,
    /// An untouchable page right before the first byte: a load or a store
    /// there ends the test by a signal. Guard bytes behind.
    FenceBefore,
    /// The same right behind the last byte. Guard bytes before.
    FenceBehind,
}

/// Guard bytes on a side: more than a slot's 208 bytes, so that a store into
/// the slot beside the sheet is seen too.
const GUARD: usize = 256;

/// Guard byte i: no run of equal bytes, which a fill could hit.
const fn guard_byte(i: usize) -> u8 {
    (i * 37 + 0x5d) as u8
}

/// They come again after 256: any 256 in a row stand here, to be copied and compared
/// at once.
static GUARD_BYTES: [u8; 512] = {
    let mut bytes = [0; 512];
    let mut i = 0;
    while i < 512 {
        bytes[i] = guard_byte(i);
        i += 1;
    }
    bytes
};

/// Places in pieces of at most 256, each with the guard bytes that stand there.
fn guards(places: Range<usize>) -> impl Iterator<Item = (Range<usize>, &'static [u8])> {
    places.clone().step_by(256).map(move |start| {
        let piece = start..places.end.min(start + 256);
        let bytes = &GUARD_BYTES[start % 256..][..piece.len()];
        (piece, bytes)
    })
}

/// Bytes to lend.
pub struct Lent {
    memory: Memory,
    front: usize,
    length: usize,
}

enum Memory {
    Heap(Vec<u8>),
    Pages(Pages),
}

impl Memory {
    fn all(&self) -> &[u8] {
        match self {
            Memory::Heap(bytes) => bytes,
            Memory::Pages(pages) => pages.all(),
        }
    }

    fn all_mut(&mut self) -> &mut [u8] {
        match self {
            Memory::Heap(bytes) => bytes,
            Memory::Pages(pages) => pages.all_mut(),
        }
    }
}

impl Lent {
    pub fn new(place: Place, bytes: &[u8]) -> Lent {
        let length = bytes.len();
        let (mut memory, front) = match place {
            Place::Guarded => {
                // Bytes start at every alignment.
                let front = GUARD + length % 16;
                (Memory::Heap(vec![0; front + length + GUARD]), front)
            }
            Place::FenceBefore => (Memory::Pages(Pages::of_at_least(length)), 0),
            Place::FenceBehind => {
                let pages = Pages::of_at_least(length);
                let front = pages.all().len() - length;
                (Memory::Pages(pages), front)
            }
        };
        let all = memory.all_mut();
        for (piece, bytes) in guards(0..front).chain(guards(front + length..all.len())) {
            all[piece].copy_from_slice(bytes);
        }
        all[front..front + length].copy_from_slice(bytes);
        Lent {
            memory,
            front,
            length,
        }
    }

    pub fn bytes(&self) -> &[u8] {
        &self.memory.all()[self.front..self.front + self.length]
    }

    pub fn bytes_mut(&mut self) -> &mut [u8] {
        &mut self.memory.all_mut()[self.front..self.front + self.length]
    }

    /// Whether every guard byte is as it was.
    pub fn guards_stand(&self) -> bool {
        let all = self.memory.all();
        let behind = self.front + self.length;
        guards(0..self.front)
            .chain(guards(behind..all.len()))
            .all(|(piece, bytes)| all[piece] == *bytes)
    }
}

/// Whole pages of memory between two pages that can't be touched.
struct Pages {
    mapping: *mut u8,
    pages: usize,
}

/// The page size of x86-64, the library's only target.
const PAGE: usize = 4096;

// From the C library that std links; the numbers are Linux's for x86-64.
extern "C" {
    fn mmap(
        at: *mut c_void,
        len: usize,
        prot: i32,
        flags: i32,
        file: i32,
        from: i64,
    ) -> *mut c_void;
    fn mprotect(at: *mut c_void, len: usize, prot: i32) -> i32;
    fn munmap(at: *mut c_void, len: usize) -> i32;
}
const PROT_NONE: i32 = 0;
const PROT_READ_WRITE: i32 = 3;
const MAP_PRIVATE_ANONYMOUS: i32 = 0x22;

impl Pages {
    fn of_at_least(length: usize) -> Pages {
        let pages = length.div_ceil(PAGE).max(1);
        let whole = (pages + 2) * PAGE;
        unsafe {
            let mapping = mmap(null_mut(), whole, PROT_NONE, MAP_PRIVATE_ANONYMOUS, -1, 0);
            assert!(mapping as isize != -1, "mmap of {whole} bytes failed");
            let inner = mapping.cast::<u8>().add(PAGE);
            let opened = mprotect(inner.cast(), pages * PAGE, PROT_READ_WRITE);
            assert_eq!(opened, 0, "mprotect of {pages} pages failed");
            Pages {
                mapping: mapping.cast(),
                pages,
            }
        }
    }

    // Both slices are the pages that were opened, which live as long as self.
    fn all(&self) -> &[u8] {
        unsafe { from_raw_parts(self.mapping.add(PAGE), self.pages * PAGE) }
    }

    fn all_mut(&mut self) -> &mut [u8] {
        unsafe { from_raw_parts_mut(self.mapping.add(PAGE), self.pages * PAGE) }
    }
}

impl Drop for Pages {
    fn drop(&mut self) {
        unsafe { munmap(self.mapping.cast(), (self.pages + 2) * PAGE) };
    }
}

/// Every place has its own byte, wherever a piece begins.
#[test]
fn the_guard_bytes_of_any_places() {
    for start in [0, 1, 255, 256, 257, 5_000] {
        for end in start..start + 600 {
            let mut next = start;
            for (piece, bytes) in guards(start..end) {
                assert_eq!((piece.start, piece.len()), (next, bytes.len()));
                let own = piece.clone().map(guard_byte);
                assert!(own.eq(bytes.iter().copied()), "{piece:?}");
                next = piece.end;
            }
            assert_eq!(next, end);
        }
    }
}

#[test]
fn a_store_beside_the_lent_bytes_is_seen() {
    for place in [Place::Guarded, Place::FenceBefore, Place::FenceBehind] {
        for length in [0, 1, 8, 216, 4096, 5000] {
            let bytes = vec![7; length];
            let mut lent = Lent::new(place, &bytes);
            assert!(lent.bytes() == bytes && lent.guards_stand());
            let beside = [lent.front.checked_sub(1), Some(lent.front + length)];
            for i in beside.into_iter().flatten() {
                // A fence stands where there is no byte to store to.
                if i < lent.memory.all().len() {
                    lent.memory.all_mut()[i] ^= 1;
                    assert!(!lent.guards_stand(), "{place:?} {length} {i}");
                    lent.memory.all_mut()[i] ^= 1;
                }
            }
        }
    }
}
