//! What a sheet holds, as text and as JSON. Both say what the library's own
//! listing says.

use crate::header;
use crate::hex;
use crate::keys::Keys;
use crate::reasons::Given;
use captions::{Change, Cipher, Fault, Refusal, FIELD};

/// The library's listing, taken apart.
pub struct Listing {
    pub slots: usize,
    pub key: u32,
    pub last: u32,
    /// Write number and length of each written slot.
    marks: Vec<Option<(u32, u32)>>,
}

impl Listing {
    /// None where the sheet is unfit.
    pub fn of_sheet(sheet: &[u8]) -> Option<Listing> {
        let listing = String::from_utf8(captions::list(sheet)).ok()?;
        let mut lines = listing.lines();
        let first: Vec<&str> = lines.next()?.split(' ').collect();
        let ["slots", slots, "key", key, "last", last] = first[..] else {
            return None;
        };
        let marks: Option<Vec<_>> = lines.map(mark_of_line).collect();
        Some(Listing {
            slots: slots.parse().ok()?,
            key: key.parse().ok()?,
            last: last.parse().ok()?,
            marks: marks?,
        })
    }

    /// The write number of a slot; 0, which no write has, where it is blank or
    /// there is no such slot.
    pub fn write_number(&self, slot: usize) -> u32 {
        let mark = self.marks.get(slot).copied().flatten();
        mark.map_or(0, |(write, _)| write)
    }
}

/// The mark of a line such as `1 written 3 17`; the inner one is none for a
/// blank slot.
fn mark_of_line(line: &str) -> Option<Option<(u32, u32)>> {
    let words: Vec<&str> = line.split(' ').collect();
    match words[..] {
        [_, "blank"] => Some(None),
        [_, "written", write, length] => Some(Some((write.parse().ok()?, length.parse().ok()?))),
        _ => None,
    }
}

/// Why a sheet is unfit, in words; none where it is fit.
pub fn unfit(sheet: &[u8]) -> Option<String> {
    let given = Given {
        sheet: Some(sheet),
        ..Given::default()
    };
    let fault = captions::first_fault(sheet)?;
    given.reason(Refusal::UnfitSheet(fault))
}

/// The listing as JSON, with the reason if it is unfit. Every object has all its
/// members; what isn't there is null.
pub fn json(sheet: &[u8], reason: Option<&str>) -> String {
    let listing = Listing::of_sheet(sheet);
    let (members, reason) = (members(sheet, listing.as_ref()), in_json(reason));
    let header = format!("{{{members},\"reason\":{reason}");
    let Some(listing) = listing else {
        return with_list(&header, Vec::new());
    };
    let marks = listing.marks.iter().enumerate();
    let slots = marks.map(|(slot, mark)| {
        let state = if mark.is_some() { "written" } else { "blank" };
        slot_json(slot, state, *mark)
    });
    with_list(&header, slots.collect())
}

/// The members that every object about a sheet begins with.
fn members(sheet: &[u8], listing: Option<&Listing>) -> String {
    let Some(Listing {
        slots, key, last, ..
    }) = listing
    else {
        return r#""fit":false,"slots":null,"key":null,"last":null,"edition":null,"serial":null,"key_mark":null,"cipher":null"#
            .to_string();
    };
    let edition = header::edition(sheet);
    let serial = header::serial(sheet).map_or("null".to_string(), |serial| serial.to_string());
    let mark = header::key_mark(sheet).map(hex::digits_of);
    let mark = in_json(mark.as_deref());
    let cipher = in_json(header::cipher(sheet).map(Cipher::name));
    let start = format!(r#""fit":true,"slots":{slots},"key":{key},"last":{last}"#);
    let rest = format!(r#""edition":{edition},"serial":{serial},"key_mark":{mark}"#);
    format!(r#"{start},{rest},"cipher":{cipher}"#)
}

/// Words as JSON. None of the command's has a character that JSON would escape.
pub fn in_json(words: Option<&str>) -> String {
    words.map_or("null".to_string(), |words| format!("\"{words}\""))
}

/// What `verify --json` prints of a sheet or keys that can't be used at all.
pub fn refused_json(sheet: &[u8], refusal: Refusal, reason: Option<&str>) -> String {
    let members = members(sheet, Listing::of_sheet(sheet).as_ref());
    let (number, word) = (refusal.number(), in_json(Some(refusal.word())));
    let counts = r#""sound":null,"blank":null,"altered":null"#;
    let refused = format!(
        r#""refusal":{number},"word":{word},"reason":{}"#,
        in_json(reason)
    );
    with_list(&format!("{{{members},{counts},{refused}"), Vec::new())
}

fn slot_json(slot: usize, state: &str, mark: Option<(u32, u32)>) -> String {
    let (write, length) = match mark {
        Some((write, length)) => (write.to_string(), length.to_string()),
        None => ("null".to_string(), "null".to_string()),
    };
    format!(r#"{{"slot":{slot},"state":"{state}","write":{write},"length":{length}}}"#)
}

/// A slot's object with what is altered as one more member.
fn with_reason(slot: String, change: Option<&Change>) -> String {
    let reason = in_json(change.map(Change::to_string).as_deref());
    let members = slot.trim_end_matches('}');
    format!(r#"{members},"reason":{reason}}}"#)
}

/// An object with the member `list` as its last, each slot on a line.
pub fn with_list(header: &str, slots: Vec<String>) -> String {
    format!("{header},\"list\":[\n{}\n]}}\n", slots.join(",\n"))
}

/// What a slot is to whoever has the keys.
#[derive(Clone, Copy, PartialEq, Eq)]
pub enum State {
    Sound(usize),
    Blank,
    Altered(Change),
}

/// A sheet of which every slot was read.
pub struct Verified {
    listing: Listing,
    states: Vec<State>,
}

impl Verified {
    pub fn of_sheet(sheet: &[u8], keys: &Keys) -> Result<Verified, Refusal> {
        let mut states = Vec::new();
        let mut window = [0; FIELD];
        // Slot 0 is read in any case, by which an unfit sheet is refused.
        let listing = Listing::of_sheet(sheet);
        let slots = listing.as_ref().map_or(1, |listing| listing.slots);
        for slot in 0..slots {
            let read = captions::read(&keys.sealing, &keys.checking, sheet, slot, &mut window);
            states.push(match read {
                Ok(length) => State::Sound(length),
                Err(Refusal::Blank) => State::Blank,
                Err(Refusal::Altered(change)) => State::Altered(change),
                Err(refusal) => return Err(refusal),
            });
        }
        let listing = listing.ok_or(Refusal::UnfitSheet(Fault::Unnamed))?;
        Ok(Verified { listing, states })
    }

    fn count(&self, wanted: impl Fn(&State) -> bool) -> usize {
        self.states.iter().filter(|state| wanted(state)).count()
    }

    /// How many slots are sound, blank and altered.
    fn counts(&self) -> [usize; 3] {
        [
            self.count(|state| matches!(state, State::Sound(_))),
            self.count(|state| *state == State::Blank),
            self.altered(),
        ]
    }

    pub fn altered(&self) -> usize {
        self.count(|state| matches!(state, State::Altered(_)))
    }

    pub fn text(&self) -> String {
        let mut report = String::new();
        for (slot, state) in self.states.iter().enumerate() {
            report += &match state {
                State::Sound(length) => format!("{slot} sound {length}\n"),
                State::Blank => format!("{slot} blank\n"),
                State::Altered(change) => format!("{slot} altered: {change}\n"),
            };
        }
        let (slots, [sound, blank, altered]) = (self.states.len(), self.counts());
        report + &format!("slots {slots} sound {sound} blank {blank} altered {altered}\n")
    }

    pub fn json(&self, sheet: &[u8]) -> String {
        let members = members(sheet, Some(&self.listing));
        let [sound, blank, altered] = self.counts();
        let counts = format!(r#""sound":{sound},"blank":{blank},"altered":{altered}"#);
        let refused = r#""refusal":null,"word":null,"reason":null"#;
        let header = format!("{{{members},{counts},{refused}");
        let states = self.states.iter().zip(&self.listing.marks).enumerate();
        let slots = states.map(|(slot, (state, mark))| match state {
            State::Sound(_) => with_reason(slot_json(slot, "sound", *mark), None),
            State::Blank => with_reason(slot_json(slot, "blank", None), None),
            State::Altered(change) => with_reason(slot_json(slot, "altered", None), Some(change)),
        });
        with_list(&header, slots.collect())
    }
}
