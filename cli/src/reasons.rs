//! What the command knows of a refusal beside its word: what it was given, and
//! what is allowed.

use crate::caption::MOST_COUNTED;
use crate::cipher::Asked;
use crate::failure::Failure;
use crate::header;
use crate::keys::Keys;
use crate::kind::Kind;
use crate::listing::Listing;
use captions::{terms_len, Fault, Refusal, FIELD, LAST_DAY, PANEL, ROUNDS, SLOTS};

/// The words and bytes of a command that was refused, as many as there are.
#[derive(Clone, Copy, Default)]
pub struct Given<'a> {
    pub sheet: Option<&'a [u8]>,
    pub terms: Option<&'a [u8]>,
    pub keys: Option<&'a Keys>,
    /// The one key of the bench or a panel.
    pub key: Option<&'a [u8]>,
    pub slot: Option<usize>,
    pub slots: Option<usize>,
    pub cipher: Option<Asked>,
    pub bits: Option<usize>,
    pub round: Option<usize>,
    pub array: Option<&'a [u8]>,
    /// The bytes of the caption, or of the panel.
    pub caption: Option<usize>,
    pub panel: Option<usize>,
}

impl Given<'_> {
    /// The refusal with what is known of it.
    pub fn refused(&self, refusal: Refusal) -> Failure {
        Failure::Refused(refusal, self.reason(refusal))
    }

    /// In words; none where the refusal's own word says it all.
    pub fn reason(&self, refusal: Refusal) -> Option<String> {
        let is_named = refusal.to_string() != refusal.word();
        match refusal {
            Refusal::WrongKey => self.wrong_key(),
            Refusal::WrongSpan => self.wrong_span(),
            Refusal::OtherKeyClass => self.other_class(),
            Refusal::NoSuchSlot => self.no_such_slot(),
            Refusal::Overlong => match self.panel {
                Some(length) => Some(overlong("panel", length, PANEL)),
                None => Some(overlong("caption", self.caption?, FIELD)),
            },
            Refusal::NoSuchRound => {
                let round = self.round?;
                Some(format!("{round}, where there are 0 to {ROUNDS}"))
            }
            Refusal::UnfitSheet(Fault::Terms) => Some(match self.terms {
                Some(terms) => format!("{}: {}", Fault::Terms, self.unfit_terms(terms)),
                None => Fault::Terms.to_string(),
            }),
            Refusal::UnfitSheet(fault) => Some(self.unfit_sheet(fault)),
            Refusal::Altered(change) if is_named => Some(change.to_string()),
            Refusal::BrokenText(found) if is_named => Some(found.to_string()),
            _ => None,
        }
    }

    fn wrong_key(&self) -> Option<String> {
        if let Some(bits) = self.bits {
            return Some(format!("BITS is 64, 80, 96 or 128, not {bits}"));
        }
        if let Some(fault) = self.cipher.and_then(Asked::fault) {
            return Some(fault);
        }
        if let Some(key) = self.key {
            let length = bytes(key.len());
            return Some(format!("a key of {length}, where there are 8, 12 and 16"));
        }
        let Keys { sealing, checking } = self.keys?;
        let (sealing, checking) = (sealing.len(), checking.len());
        Some(match sealing == checking {
            true => format!(
                "keys of {}, where there are 8, 10, 12 and 16",
                bytes(sealing)
            ),
            false => format!(
                "a sealing key of {} and a checking key of {checking}; \
                 both have 8, both 10, both 12 or both 16",
                bytes(sealing)
            ),
        })
    }

    fn wrong_span(&self) -> Option<String> {
        if let Some(array) = self.array {
            return Some(format!("ARRAY has 16 hex digits, not {}", 2 * array.len()));
        }
        let slots = self.slots?;
        Some(format!("SLOTS is 1 to {SLOTS}, not {slots}"))
    }

    fn other_class(&self) -> Option<String> {
        let (whose, cipher) = match self.cipher {
            Some(Asked::Cipher(cipher)) => ("CIPHER", cipher),
            _ => ("the sheet's cipher", header::cipher(self.sheet?)?),
        };
        let (keys, wanted) = (bytes(self.keys?.sealing.len()), cipher.key_bytes());
        Some(format!(
            "keys of {keys}, where {whose}, {cipher}, has {wanted}"
        ))
    }

    fn no_such_slot(&self) -> Option<String> {
        let slot = self.slot?;
        let (name, slots) = match (self.sheet, self.terms) {
            (Some(sheet), _) => ("sheet", Listing::of_sheet(sheet)?.slots),
            (None, terms) => ("term sheet", slots_in(terms?)?),
        };
        Some(match slots.saturating_sub(1) {
            0 => format!("{slot}, where the {name} has 0 alone"),
            last => format!("{slot}, where the {name} has 0 to {last}"),
        })
    }

    /// The rule, and whether the file is another kind altogether.
    fn unfit_sheet(&self, fault: Fault) -> String {
        match self.sheet.map(Kind::of) {
            Some(kind @ (Kind::Keys | Kind::Terms)) => format!("{fault}; it is {}", kind.name()),
            _ => fault.to_string(),
        }
    }

    /// What is wrong with a term sheet, for the sheet if there is one.
    fn unfit_terms(&self, terms: &[u8]) -> String {
        let sheet = self.sheet.and_then(Listing::of_sheet);
        let sheet = sheet.map(|listing| listing.slots);
        match (slots_in(terms), Kind::of(terms)) {
            (Some(slots @ 1..=SLOTS), _) if terms.len() == terms_len(slots) => match sheet {
                Some(sheet) if sheet != slots => other_count(slots, sheet),
                _ => late_day(terms, slots),
            },
            (_, kind @ (Kind::Sheet | Kind::Keys | Kind::Empty)) => {
                format!("it is {}", kind.name())
            }
            (Some(slots @ 1..=SLOTS), _) => {
                let (bytes, whole) = (bytes(terms.len()), terms_len(slots));
                format!("{bytes}, where a term sheet of {slots} slots has {whole}")
            }
            (Some(slots), _) => format!("{slots} slots, where there are 1 to {SLOTS}"),
            (None, _) => format!("{}, where it has at least 6", bytes(terms.len())),
        }
    }
}

/// Why a file isn't a term sheet.
pub fn unfit_terms(terms: &[u8]) -> String {
    Given::default().unfit_terms(terms)
}

fn other_count(slots: usize, sheet: usize) -> String {
    format!("it is for {slots} slots, where the sheet has {sheet}")
}

/// The first day that there isn't.
fn late_day(terms: &[u8], slots: usize) -> String {
    let (numbers, _) = terms.as_chunks::<2>();
    let days = numbers.iter().skip(1).map(|day| u16::from_be_bytes(*day));
    match days.enumerate().find(|(_, day)| *day > LAST_DAY) {
        Some((place, day)) => {
            let what = if place < slots { "opening" } else { "closing" };
            let slot = place % slots;
            format!("slot {slot}: {what} day {day}, where the last is {LAST_DAY}")
        }
        None => "it isn't one".to_string(),
    }
}

/// The slot count that a term sheet begins with.
fn slots_in(terms: &[u8]) -> Option<usize> {
    terms
        .first_chunk::<2>()
        .map(|first| u16::from_be_bytes(*first).into())
}

fn overlong(name: &str, length: usize, most: usize) -> String {
    let allowed = format!("where a {name} has at most {most}");
    match length > MOST_COUNTED {
        true => format!("more than {MOST_COUNTED} bytes, {allowed}"),
        false => {
            let over = length.saturating_sub(most);
            format!("{}, {allowed}: {over} too many", bytes(length))
        }
    }
}

fn bytes(count: usize) -> String {
    format!("{count} byte{}", if count == 1 { "" } else { "s" })
}
