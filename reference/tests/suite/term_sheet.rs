//! Term sheets, for the tests of every package, laid out and judged here and by
//! no program that is tested (document 02, request 1).

/// The last day, 2099-12-31.
pub const LAST_DAY: usize = 36524;

/// The opening and the closing day of a slot.
pub type Term = (u16, u16);

/// On show on every day.
pub const ALWAYS: Term = (0, 36524);
/// Opening above closing: on show on no day.
pub const NEVER: Term = (1, 0);

/// Where the opening day of a slot stands.
pub fn opening_place(slot: usize) -> usize {
    2 + 2 * slot
}

/// Where the closing day of a slot stands, in a term sheet of n slots.
pub fn closing_place(n: usize, slot: usize) -> usize {
    2 + 2 * n + 2 * slot
}

/// The term sheet of slots with these terms.
pub fn term_sheet(terms: &[Term]) -> Vec<u8> {
    let n = terms.len();
    let mut sheet = vec![0; 2 + 4 * n];
    put_number(&mut sheet, 0, n as u16);
    for (slot, (opening, closing)) in terms.iter().enumerate() {
        put_number(&mut sheet, opening_place(slot), *opening);
        put_number(&mut sheet, closing_place(n, slot), *closing);
    }
    sheet
}

/// Stores two bytes, high byte first.
pub fn put_number(sheet: &mut [u8], place: usize, number: u16) {
    sheet[place] = (number / 256) as u8;
    sheet[place + 1] = (number % 256) as u8;
}

/// The number of two bytes.
pub fn number_at(sheet: &[u8], place: usize) -> usize {
    256 * usize::from(sheet[place]) + usize::from(sheet[place + 1])
}

/// Whether a term sheet belongs beside a sheet of n slots, n from 1 to 256.
pub fn belongs(terms: &[u8], n: usize) -> bool {
    if terms.len() != 2 + 4 * n || number_at(terms, 0) != n {
        return false;
    }
    let mut days = (1..=2 * n).map(|i| number_at(terms, 2 * i));
    days.all(|day| day <= LAST_DAY)
}

/// Whether a slot below n is on show, by a term sheet that belongs.
pub fn on_show(terms: &[u8], n: usize, slot: usize, day: usize) -> bool {
    let opening = number_at(terms, opening_place(slot));
    let closing = number_at(terms, closing_place(n, slot));
    (opening..=closing).contains(&day)
}
