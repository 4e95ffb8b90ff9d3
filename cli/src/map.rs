//! A sheet at a glance: a sign for each slot, sixteen to a line.

use crate::listing::Listing;
use captions::Refusal;

/// The slots of a line.
const ACROSS: usize = 16;

/// What a slot is to whoever looks at the hall.
#[derive(Clone, Copy, PartialEq, Eq)]
enum State {
    Blank,
    Written,
    OnShow,
    NotOnShow,
}

impl State {
    fn sign(self) -> char {
        match self {
            State::Blank => '.',
            State::Written => 'o',
            State::OnShow => '+',
            State::NotOnShow => '-',
        }
    }

    fn words(self) -> &'static str {
        match self {
            State::Blank => "blank",
            State::Written => "written",
            State::OnShow => "written, on show",
            State::NotOnShow => "written, not on show",
        }
    }
}

/// The map of a sheet. Where there are terms, it says of each written slot whether
/// it is on show on the day.
pub fn map(listing: &Listing, terms: Option<(&[u8], usize)>) -> Result<String, Refusal> {
    let mut states = Vec::new();
    for slot in 0..listing.slots {
        let on_show = match terms {
            Some((terms, day)) => Some(captions::terms_on_show(terms, slot, day)?),
            None => None,
        };
        states.push(match (listing.write_number(slot), on_show) {
            (0, _) => State::Blank,
            (_, None) => State::Written,
            (_, Some(true)) => State::OnShow,
            (_, Some(false)) => State::NotOnShow,
        });
    }
    let mut text = String::new();
    for (line, states) in states.chunks(ACROSS).enumerate() {
        let signs: String = states.iter().map(|state| state.sign()).collect();
        text += &format!("{:3} {signs}\n", ACROSS * line);
    }
    let kinds: &[State] = match terms {
        Some(_) => &[State::Blank, State::OnShow, State::NotOnShow],
        None => &[State::Blank, State::Written],
    };
    for kind in kinds {
        let (sign, words) = (kind.sign(), kind.words());
        let count = states.iter().filter(|state| *state == kind).count();
        text += &format!("{sign} {words}: {count}\n");
    }
    Ok(text)
}
