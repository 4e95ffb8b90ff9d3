//! Where a text breaks, and why.

use crate::library;
use std::fmt;

/// Where a text breaks that isn't UTF-8 of RFC 3629, and why.
///
/// ```
/// use captions::{blank, sheet_len, write, Break, BreakKind, Refusal};
///
/// let mut sheet = vec![0; sheet_len(1)];
/// blank(&mut sheet, 1, 4, 1, &[1; 8], &[2; 8])?;
/// let cut = &"Café".as_bytes()[..4];
/// let refusal = write(&[1; 8], &[2; 8], &mut sheet, 0, cut).unwrap_err();
/// let (at, kind) = (4, BreakKind::CutOffAtEnd);
/// assert_eq!(refusal, Refusal::BrokenText(Break { at, kind }));
/// assert_eq!(
///     refusal.to_string(),
///     "broken text: byte 4: a letter is cut off at the end"
/// );
/// # Ok::<(), Refusal>(())
/// ```
#[derive(Clone, Copy, Debug, PartialEq, Eq, Hash)]
pub struct Break {
    /// The first byte, from 0, at which no well-formed text can go on, as
    /// [`broken_at`](crate::broken_at) gives it; the text's length where it is
    /// cut off.
    pub at: usize,
    /// Why it can't go on.
    pub kind: BreakKind,
}

/// Why a text can't go on at a byte. A later version may have more of them, so a
/// `match` wants an arm for the others.
#[derive(Clone, Copy, Debug, PartialEq, Eq, Hash)]
#[non_exhaustive]
pub enum BreakKind {
    /// The text ends inside a letter.
    CutOffAtEnd,
    /// Something else than 80 to BF, where the letter before it has a byte to come.
    CutOff,
    /// A byte from 80 to BF, where no letter has a byte to come.
    Continuation,
    /// C0 or C1, 80 to 9F after E0, or 80 to 8F after F0: an overlong form.
    OverlongForm,
    /// A0 to BF after ED: from U+D800 to U+DFFF.
    Surrogate,
    /// 90 to BF after F4: above U+10FFFF.
    TooHigh,
    /// F5 to FF.
    NoLetter,
    /// Why isn't known: the refusal was made from its number alone.
    Unnamed,
}

impl Break {
    /// Of a number alone.
    pub(crate) const UNNAMED: Break = Break {
        at: 0,
        kind: BreakKind::Unnamed,
    };

    /// The break of a text that the library found broken. The library tells where;
    /// why is read off the bytes there.
    pub(crate) fn of_broken(text: &[u8]) -> Break {
        let at = library::broken_at(text);
        let kind = match text.get(at) {
            None => BreakKind::CutOffAtEnd,
            Some(byte) => kind_of(lead_before(text, at), *byte),
        };
        Break { at, kind }
    }
}

/// Why a byte can't stand behind the first byte of a letter and any of its others,
/// or behind whole letters.
fn kind_of(lead: Option<(u8, usize)>, byte: u8) -> BreakKind {
    match (lead, byte) {
        (Some((0xe0, 0)), 0x80..=0x9f) | (Some((0xf0, 0)), 0x80..=0x8f) => BreakKind::OverlongForm,
        (Some((0xed, 0)), 0xa0..=0xbf) => BreakKind::Surrogate,
        (Some((0xf4, 0)), 0x90..=0xbf) => BreakKind::TooHigh,
        (Some(_), 0x00..=0x7f | 0xc0..=0xff) => BreakKind::CutOff,
        (None, 0x80..=0xbf) => BreakKind::Continuation,
        (None, 0xc0 | 0xc1) => BreakKind::OverlongForm,
        (None, 0xf5..=0xff) => BreakKind::NoLetter,
        _ => BreakKind::Unnamed,
    }
}

/// The first byte of the letter that isn't whole before a place, and how many of
/// its others stand there; none where every letter is whole.
fn lead_before(text: &[u8], at: usize) -> Option<(u8, usize)> {
    let before = text.get(..at)?.iter().rev();
    let others = before.clone().take_while(|byte| is_continuation(**byte));
    let others = others.count();
    let lead = *before.clone().nth(others)?;
    let all = match lead {
        0xc2..=0xdf => 1,
        0xe0..=0xef => 2,
        0xf0..=0xf4 => 3,
        _ => 0,
    };
    (others < all).then_some((lead, others))
}

fn is_continuation(byte: u8) -> bool {
    (0x80..=0xbf).contains(&byte)
}

/// In words for somebody who wrote the text.
impl fmt::Display for Break {
    fn fmt(&self, f: &mut fmt::Formatter<'_>) -> fmt::Result {
        write!(f, "byte {}: {}", self.at, self.kind)
    }
}

impl fmt::Display for BreakKind {
    fn fmt(&self, f: &mut fmt::Formatter<'_>) -> fmt::Result {
        f.write_str(match self {
            BreakKind::CutOffAtEnd => "a letter is cut off at the end",
            BreakKind::CutOff => "the letter before it is cut off",
            BreakKind::Continuation => "a continuation byte that belongs to no letter",
            BreakKind::OverlongForm => "an overlong form, more bytes than the letter needs",
            BreakKind::Surrogate => "a surrogate, which is half of a letter",
            BreakKind::TooHigh => "above U+10FFFF, the last letter",
            BreakKind::NoLetter => "no letter begins with this byte",
            BreakKind::Unnamed => "why is not named",
        })
    }
}
