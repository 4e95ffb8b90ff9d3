//! The refusals, their numbers and their words.

use crate::fault::{Change, Fault};
use crate::library::Pointed;
use crate::text::{Break, BreakKind};
use std::fmt;

/// Why a call was refused. Shown as the word that the kiosk shows instead of a
/// caption, which [`word`](Refusal::word) gives alone; behind the word of an
/// unfit sheet and of an altered slot stands the rule that gave it, behind that of
/// a broken text where and why it breaks. A later version may have more of them, so
/// a `match` wants an arm for the others.
///
/// ```
/// use captions::{Change, Fault, Refusal};
///
/// let refusal = Refusal::UnfitSheet(Fault::CaptionLength { slot: 3, place: 68 });
/// assert_eq!(refusal.number(), 4);
/// assert_eq!(refusal.word(), "unfit sheet");
/// assert_eq!(
///     refusal.to_string(),
///     "unfit sheet: slot 3: length above 192 (bytes 68 and 69)"
/// );
/// assert_eq!(Refusal::Worn.to_string(), "worn");
/// ```
#[derive(Clone, Copy, Debug, PartialEq, Eq, Hash)]
#[non_exhaustive]
pub enum Refusal {
    /// 1: a key isn't 8, 12 or 16 bytes (on sheets 10 too, PRESENT's blocks: isn't
    /// 10 or 16), or the two lengths differ; blanking: a number that is no cipher's.
    WrongKey,
    /// 2: sealing and checking key are equal.
    TwinKeys,
    /// 3: a block, an array or their output isn't 8 bytes, a check output isn't
    /// 8, a window isn't 192, a panel's output isn't as long as the panel, a running
    /// order's output is too short for its text; blanking: the slots aren't 1 to 256
    /// or the buffer has another length.
    WrongSpan,
    /// 4: shorter than 8 bytes, or any rule of the layout broken, in any slot; a
    /// term sheet with another slot count than the sheet's, another length or a
    /// day above [`LAST_DAY`](crate::LAST_DAY), in any slot. With the rule that
    /// is broken first.
    UnfitSheet(Fault),
    /// 5: the keys have another length than the sheet's cipher has; blanking: than
    /// the cipher given.
    OtherKeyClass,
    /// 6: the slot isn't below the slot count.
    NoSuchSlot,
    /// 7: the caption is above 192 bytes, or the panel above
    /// [`PANEL`](crate::PANEL).
    Overlong,
    /// 8: a write on a sheet whose last write number is 4294967295.
    Worn,
    /// 9: a read of a blank slot.
    Blank,
    /// 10: the check differs, or an opened byte at or past the length isn't
    /// zero. With what differs.
    Altered(Change),
    /// 11: a year, month and day that are no date from 2000-01-01 to 2099-12-31,
    /// or a day above [`LAST_DAY`](crate::LAST_DAY).
    NoSuchDate,
    /// 12: a dated read before the slot's opening day or after its closing day.
    NotOnShow,
    /// 13: the bench, for a round above [`ROUNDS`](crate::ROUNDS).
    NoSuchRound,
    /// 14: a sheet of edition 3 whose key mark isn't that of the two keys.
    OtherKeys,
    /// 15: a write of a caption that isn't UTF-8 of RFC 3629. With where and why.
    BrokenText(Break),
    /// A number that this crate has no word for, shown as "refused". The library
    /// never gives one: this is what stands in for a panic if it did.
    Other(u8),
}

/// The refusals that have a word, in the order of their numbers, 1 to 15.
const WORDS: [(Refusal, &str); 15] = [
    (Refusal::WrongKey, "wrong key"),
    (Refusal::TwinKeys, "twin keys"),
    (Refusal::WrongSpan, "wrong span"),
    (Refusal::UnfitSheet(Fault::Unnamed), "unfit sheet"),
    (Refusal::OtherKeyClass, "other key class"),
    (Refusal::NoSuchSlot, "no such slot"),
    (Refusal::Overlong, "overlong"),
    (Refusal::Worn, "worn"),
    (Refusal::Blank, "blank"),
    (Refusal::Altered(Change::Unnamed), "altered"),
    (Refusal::NoSuchDate, "no such date"),
    (Refusal::NotOnShow, "not on show"),
    (Refusal::NoSuchRound, "no such round"),
    (Refusal::OtherKeys, "other keys"),
    (Refusal::BrokenText(Break::UNNAMED), "broken text"),
];

impl Refusal {
    /// The refusal of a number that a call answers; none for 0, which is
    /// "accepted". A number alone names no rule.
    ///
    /// ```
    /// use captions::Refusal;
    ///
    /// assert_eq!(Refusal::of_number(0), None);
    /// assert_eq!(Refusal::of_number(9), Some(Refusal::Blank));
    /// assert_eq!(Refusal::of_number(200), Some(Refusal::Other(200)));
    /// ```
    pub fn of_number(number: u8) -> Option<Refusal> {
        let place = usize::from(number).checked_sub(1)?;
        let named = WORDS.get(place).map(|(refusal, _)| *refusal);
        Some(named.unwrap_or(Refusal::Other(number)))
    }

    /// The refusal of an answer that points, which a call on this sheet gave.
    pub(crate) fn of_pointed(answer: &Pointed, sheet: &[u8]) -> Option<Refusal> {
        Refusal::of_number(answer.number).map(|refusal| match refusal {
            Refusal::UnfitSheet(_) => Refusal::UnfitSheet(Fault::of_pointed(answer, sheet)),
            Refusal::Altered(_) => Refusal::Altered(Change::of_pointed(answer)),
            other => other,
        })
    }

    /// The word that the kiosk shows instead of a caption.
    ///
    /// ```
    /// assert_eq!(captions::Refusal::WrongKey.word(), "wrong key");
    /// ```
    pub fn word(self) -> &'static str {
        let place = usize::from(self.number()).wrapping_sub(1);
        WORDS.get(place).map_or("refused", |(_, word)| word)
    }

    /// The refusal's number.
    ///
    /// ```
    /// assert_eq!(captions::Refusal::WrongKey.number(), 1);
    /// ```
    pub fn number(self) -> u8 {
        match self {
            Refusal::WrongKey => 1,
            Refusal::TwinKeys => 2,
            Refusal::WrongSpan => 3,
            Refusal::UnfitSheet(_) => 4,
            Refusal::OtherKeyClass => 5,
            Refusal::NoSuchSlot => 6,
            Refusal::Overlong => 7,
            Refusal::Worn => 8,
            Refusal::Blank => 9,
            Refusal::Altered(_) => 10,
            Refusal::NoSuchDate => 11,
            Refusal::NotOnShow => 12,
            Refusal::NoSuchRound => 13,
            Refusal::OtherKeys => 14,
            Refusal::BrokenText(_) => 15,
            Refusal::Other(number) => number,
        }
    }
}

impl fmt::Display for Refusal {
    fn fmt(&self, f: &mut fmt::Formatter<'_>) -> fmt::Result {
        f.write_str(self.word())?;
        match self {
            Refusal::UnfitSheet(Fault::Unnamed) | Refusal::Altered(Change::Unnamed) => Ok(()),
            Refusal::UnfitSheet(fault) => write!(f, ": {fault}"),
            Refusal::Altered(change) => write!(f, ": {change}"),
            Refusal::BrokenText(found) if found.kind != BreakKind::Unnamed => {
                write!(f, ": {found}")
            }
            _ => Ok(()),
        }
    }
}

impl std::error::Error for Refusal {}
