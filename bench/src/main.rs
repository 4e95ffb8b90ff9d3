//! Prints how fast the library is beside the baseline, beside the same ideas in
//! Rust and beside the second program.

mod agreement;
mod baseline;
mod dates;
mod instructions;
mod meter;
mod order;
mod present;
mod timing;

use baseline::{Looped, SameIdeas};
use differential::edition::Edition;
use differential::letters::good_text;
use differential::library;
use differential::random::Random;
use differential::sheets::{key_bytes, set_last_number, Keys, FIELD, MCRYPTON};
use differential::term_sheet::{term_sheet, Term, ALWAYS, LAST_DAY};
use meter::{figure, Aims, Meter};
use reference::{Answer, Pointed};
use std::hint::black_box;
use std::str::from_utf8;
use timing::{timed, Timed, ROUNDS, SAMPLE};

fn main() {
    if std::env::args().nth(1).as_deref() == Some(instructions::COUNT) {
        measure(&mut Meter::counting());
        return;
    }
    let compared = agreement::check_baseline();
    println!(
        "\
The baseline was compared with the second program first: {compared} calls agree.

The calls of a row are sampled in turn, round by round: {ROUNDS} rounds, samples of about
{SAMPLE:?}. A figure is the median of a call's samples, a ratio the median over the
rounds of library / baseline, or library / same ideas. No output feeds the next call;
arguments and results go through black_box; the buffers are warm. No speed is asserted.
The same ideas in Rust: the baseline with its rounds written out, a field's blocks
decrypted and a panel's encrypted in walks of the register, a mark's last bytes compared
as one number, and the starts of the months along a line in place of a table. Its
register goes through black_box for each block or walk encrypted: else the compiler makes
the round keys once for a message and remembers them, which document 01 rules out.
Instructions: the library's, and their part of the baseline's, by valgrind."
    );
    let mut meter = Meter::timing();
    measure(&mut meter);
    meter.say_aims();
}

fn measure(meter: &mut Meter) {
    let mut random = Random::of_part(901);
    blocks(meter, &mut random);
    cmacs(meter, &mut random);
    panels(meter, &mut random);
    sheets(meter, &mut random);
    present_blocks(meter, &mut random);
    present_sheets(meter, &mut random);
    texts(meter, &mut random);
    conversions(meter, &mut random);
}

// ---- One block ----

fn blocks(meter: &mut Meter, random: &mut Random) {
    meter.head(
        "One block: ns for each block",
        "\
Path number 0xffff takes the word path in every round, path number 0 the nibble path,
0x0555 each by turns.",
        "Call | Key bits | Library, 0xffff | Baseline | Same ideas in Rust | Ratio | To same ideas | Instructions | Library, 0 | Instructions | Library, 0x0555 | Instructions",
    );
    for (name, calls) in BLOCK_CALLS {
        for t in MCRYPTON {
            let (key, block) = (random.bytes(2 * t), random.block());
            let row = meter.row(block_calls(calls, &key, &block));
            meter.aim(Aims::Blocks, row.ratio(0, 1));
            meter.print(&[
                name,
                &(16 * t).to_string(),
                &figure(row.nanoseconds(0)),
                &figure(row.nanoseconds(1)),
                &figure(row.nanoseconds(2)),
                &row.ratio_cell(0, 1),
                &row.ratio_cell(0, 2),
                &row.instructions(0, 1),
                &figure(row.nanoseconds(3)),
                &row.instructions(3, 1),
                &figure(row.nanoseconds(4)),
                &row.instructions(4, 1),
            ]);
        }
    }
}

type LibraryCall = fn(&[u8], &[u8], u16, &mut [u8]) -> Answer;
type BaselineCall = fn(&[u8], &[u8], &mut [u8]) -> Answer;

/// The library's call, and the baseline's in both styles.
type BlockCalls = (LibraryCall, [BaselineCall; 2]);

const BLOCK_CALLS: [(&str, BlockCalls); 2] = [
    (
        "encrypt",
        (
            library::encrypt_block,
            [
                baseline::encrypt_block::<Looped>,
                baseline::encrypt_block::<SameIdeas>,
            ],
        ),
    ),
    (
        "decrypt",
        (
            library::decrypt_block,
            [
                baseline::decrypt_block::<Looped>,
                baseline::decrypt_block::<SameIdeas>,
            ],
        ),
    ),
];

fn block_calls<'a>((ours, theirs): BlockCalls, key: &'a [u8], block: &'a [u8]) -> Vec<Timed<'a>> {
    let by_path = |path: u16| {
        let mut out = [0; 8];
        timed(move || {
            let (key, block) = black_box((key, block));
            ours(key, block, black_box(path), black_box(&mut out))
        })
    };
    let mut calls = vec![by_path(0xffff)];
    for call in theirs {
        let mut out = [0; 8];
        calls.push(timed(move || {
            let (key, block) = black_box((key, block));
            call(key, block, black_box(&mut out))
        }));
    }
    calls.extend([by_path(0), by_path(0x0555)]);
    calls
}

// ---- CMAC ----

fn cmacs(meter: &mut Meter, random: &mut Random) {
    meter.head(
        "CMAC: ns for each byte of the message",
        "\
The library encrypts here by its path of words alone, as it does in sheets.",
        "Message bytes | Key bits | Library | Baseline | Same ideas in Rust | Ratio | To same ideas | Instructions",
    );
    let calls: [BaselineCall; 3] = [
        library::cmac,
        baseline::cmac::<Looped>,
        baseline::cmac::<SameIdeas>,
    ];
    for length in [192, 65_536] {
        for t in MCRYPTON {
            let (key, message) = (random.bytes(2 * t), random.bytes(length));
            let (key, message) = (&key[..], &message[..]);
            let row = meter.row(Vec::from(calls.map(|call| {
                let mut out = [0; 8];
                timed(move || {
                    let (key, message) = black_box((key, message));
                    call(key, message, black_box(&mut out))
                })
            })));
            meter.aim(Aims::Cmac, row.ratio(0, 1));
            meter.print(&[
                &length.to_string(),
                &(16 * t).to_string(),
                &figure(row.nanoseconds(0) / length as f64),
                &figure(row.nanoseconds(1) / length as f64),
                &figure(row.nanoseconds(2) / length as f64),
                &row.ratio_cell(0, 1),
                &row.ratio_cell(0, 2),
                &row.instructions(0, 1),
            ]);
        }
    }
}

// ---- Panels ----

type PanelCall = fn(&[u8], u64, &[u8], &mut [u8]) -> Answer;

fn panels(meter: &mut Meter, random: &mut Random) {
    meter.head(
        "Panels: ns for each byte of the panel",
        "\
Counter mode, from a number whose panel of 65536 bytes crosses the wrap. The library and
the same ideas in Rust encrypt up to 32 counter blocks in one walk of the register.",
        "Panel bytes | Key bits | Library | Baseline | Same ideas in Rust | Ratio | To same ideas | Instructions | Second program",
    );
    let calls: [PanelCall; 4] = [
        library::panel,
        baseline::panel::<Looped>,
        baseline::panel::<SameIdeas>,
        reference::panel::panel,
    ];
    for length in [8, 192, 4096, 65_536] {
        for t in MCRYPTON {
            let (key, panel) = (random.bytes(2 * t), random.bytes(length));
            let (key, panel) = (&key[..], &panel[..]);
            let row = meter.row(Vec::from(calls.map(|call| {
                let mut out = vec![0; length];
                timed(move || {
                    let (key, first, panel) = black_box((key, 0u64.wrapping_sub(4096), panel));
                    call(key, first, panel, black_box(&mut out))
                })
            })));
            if length == 65_536 {
                meter.aim(Aims::Panels, row.ratio(0, 1));
            }
            meter.print(&[
                &length.to_string(),
                &(16 * t).to_string(),
                &figure(row.nanoseconds(0) / length as f64),
                &figure(row.nanoseconds(1) / length as f64),
                &figure(row.nanoseconds(2) / length as f64),
                &row.ratio_cell(0, 1),
                &row.ratio_cell(0, 2),
                &row.instructions(0, 1),
                &figure(row.nanoseconds(3) / length as f64),
            ]);
        }
    }
}

// ---- Sheets ----

/// A call on the last slot of a sheet.
type SheetCalls = fn(&Keys, &[u8], usize) -> Vec<Timed<'static>>;

fn sheets(meter: &mut Meter, random: &mut Random) {
    meter.head(
        "Sheets: µs for each call",
        "\
128-bit keys, sheets of edition 3, which blanking makes. Full: every slot holds a
caption of 192 bytes; blank: none does. A read opens, a write seals and a clear empties
the last slot, each after the layout test of the whole sheet. CBC has no call of its
own: a write is 25 encryptions by CBC, 26 by CMAC, 3 for the key mark, the layout test
and the test of 192 bytes of text, ASCII or letters of three bytes; a read is the same
with 24 decryptions and without the text's test. The baseline tests the key mark too,
and the text by Rust's own from_utf8. A dated read is a read after the test of the whole
term sheet, with every slot on show. A running order is that of a day on which every slot
is on show, the last one opening first; of 256 slots it is the longest text, 7570 bytes.
The baseline sorts by Rust's own sort_unstable. The layout test alone is a clear of slot
n, which is refused after that test.",
        "Call | Sheet | Slots | Library | Baseline | Same ideas in Rust | Ratio | To same ideas | Instructions | Second program",
    );
    let calls: [(&str, &str, SheetCalls, Aims); 8] = [
        ("read", "full", reads, Aims::Reads),
        ("dated read", "full", dated_reads, Aims::DatedReads),
        ("write, ASCII", "full", ascii_writes, Aims::Writes),
        ("write, 3-byte letters", "full", letter_writes, Aims::Writes),
        ("running order", "full", running_orders, Aims::None),
        ("clear", "full", clears, Aims::None),
        ("layout test", "full", layout_tests, Aims::Layout),
        ("layout test", "blank", layout_tests, Aims::Layout),
    ];
    for (name, state, calls, aim) in calls {
        for n in [1, 16, 256] {
            let keys = Keys::unlike(random, 8);
            let mut sheet = keys.blank_sheet(Edition::BLANKED, n, 8);
            if state == "full" {
                fill(random, &keys, &mut sheet, n);
            }
            let row = meter.row(calls(&keys, &sheet, n));
            meter.aim(aim, row.ratio(0, 1));
            meter.print(&[
                name,
                state,
                &n.to_string(),
                &figure(row.nanoseconds(0) / 1000.0),
                &figure(row.nanoseconds(1) / 1000.0),
                &figure(row.nanoseconds(2) / 1000.0),
                &row.ratio_cell(0, 1),
                &row.ratio_cell(0, 2),
                &row.instructions(0, 1),
                &figure(row.nanoseconds(3) / 1000.0),
            ]);
        }
    }
}

/// Writes every slot, the last write number far from its end.
fn fill(random: &mut Random, keys: &Keys, sheet: &mut [u8], n: usize) {
    set_last_number(sheet, 1_000_000);
    for slot in 0..n {
        let caption = good_text(random, FIELD);
        let answer = library::write(&keys.sealing, &keys.checking, sheet, slot, &caption);
        assert_eq!(answer.number, 0);
    }
}

/// The baseline's answer in the library's form. It looks for no rule where it
/// refuses; no refused call is timed but the layout test alone and the test of a text.
#[inline]
fn pointed(answer: Answer) -> Pointed {
    Pointed {
        number: answer.number,
        rule: 0,
        length: answer.length,
        slot: 0,
        place: 0,
    }
}

type Read = fn(&[u8], &[u8], &[u8], usize, &mut [u8]) -> Pointed;

fn reads(keys: &Keys, sheet: &[u8], n: usize) -> Vec<Timed<'static>> {
    let reads: [Read; 4] = [
        library::read,
        |k, m, s, i, w| pointed(baseline::read::<Looped>(k, m, s, i, w)),
        |k, m, s, i, w| pointed(baseline::read::<SameIdeas>(k, m, s, i, w)),
        reference::read,
    ];
    reads
        .map(|read| {
            let (keys, sheet) = (keys.clone(), sheet.to_vec());
            let mut window = [0; FIELD];
            timed(move || {
                let (keys, sheet) = black_box((&keys, &sheet));
                let window = black_box(&mut window);
                read(&keys.sealing, &keys.checking, sheet, n - 1, window)
            })
        })
        .into()
}

type DatedRead = fn(&[u8], &[u8], &[u8], &[u8], usize, usize, &mut [u8]) -> Pointed;

fn dated_reads(keys: &Keys, sheet: &[u8], n: usize) -> Vec<Timed<'static>> {
    let terms = term_sheet(&vec![ALWAYS; n]);
    let reads: [DatedRead; 4] = [
        library::dated_read,
        |k, m, s, t, i, d, w| pointed(baseline::dated_read::<Looped>(k, m, s, t, i, d, w)),
        |k, m, s, t, i, d, w| pointed(baseline::dated_read::<SameIdeas>(k, m, s, t, i, d, w)),
        reference::dated_read,
    ];
    reads
        .map(|read| {
            let (keys, sheet, terms) = (keys.clone(), sheet.to_vec(), terms.clone());
            let mut window = [0; FIELD];
            timed(move || {
                let (keys, sheet, terms) = black_box((&keys, &sheet, &terms));
                let (day, window) = black_box((LAST_DAY, &mut window));
                read(
                    &keys.sealing,
                    &keys.checking,
                    sheet,
                    terms,
                    n - 1,
                    day,
                    window,
                )
            })
        })
        .into()
}

type Write = fn(&[u8], &[u8], &mut [u8], usize, &[u8]) -> Pointed;

fn ascii_writes(keys: &Keys, sheet: &[u8], n: usize) -> Vec<Timed<'static>> {
    writes(keys, sheet, n, "A")
}

fn letter_writes(keys: &Keys, sheet: &[u8], n: usize) -> Vec<Timed<'static>> {
    writes(keys, sheet, n, "\u{20ac}")
}

/// The longest caption of a letter.
fn writes(keys: &Keys, sheet: &[u8], n: usize, letter: &str) -> Vec<Timed<'static>> {
    let caption = letter.repeat(FIELD / letter.len()).into_bytes();
    let writes: [Write; 4] = [
        library::write,
        |k, m, s, i, c| pointed(baseline::write::<Looped>(k, m, s, i, c)),
        |k, m, s, i, c| pointed(baseline::write::<SameIdeas>(k, m, s, i, c)),
        reference::write,
    ];
    writes
        .map(|write| {
            let (keys, mut sheet, caption) = (keys.clone(), sheet.to_vec(), caption.clone());
            timed(move || {
                let (keys, sheet) = black_box((&keys, &mut sheet));
                let caption = black_box(&caption);
                write(&keys.sealing, &keys.checking, sheet, n - 1, caption)
            })
        })
        .into()
}

type RunningOrder = fn(&[u8], &[u8], &[u8], &mut [u8]) -> Answer;

/// All slots on show on the last day, their openings falling with the slot.
fn running_orders(_: &Keys, sheet: &[u8], n: usize) -> Vec<Timed<'static>> {
    let falling: Vec<Term> = (0..n)
        .map(|slot| (9_617 - 37 * slot as u16, LAST_DAY as u16))
        .collect();
    let terms = term_sheet(&falling);
    let orders: [RunningOrder; 4] = [
        library::running_order,
        order::running_order::<Looped>,
        order::running_order::<SameIdeas>,
        |sheet, terms, date, out| {
            let text = reference::running_order(sheet, terms, date);
            out[..text.len()].copy_from_slice(&text);
            Answer::accepted(text.len() as u16)
        },
    ];
    orders
        .map(|order| {
            let (sheet, terms) = (sheet.to_vec(), terms.clone());
            let mut out = [0; 7570];
            timed(move || {
                let (sheet, terms) = black_box((&sheet, &terms));
                let (date, out) = black_box((b"2099-12-31", &mut out));
                order(sheet, terms, date, out)
            })
        })
        .into()
}

/// From the second time on the last slot is blank already, which is the same
/// work: the layout test, and 208 bytes made zero.
fn clears(_: &Keys, sheet: &[u8], n: usize) -> Vec<Timed<'static>> {
    clears_of(sheet, n - 1)
}

fn layout_tests(_: &Keys, sheet: &[u8], n: usize) -> Vec<Timed<'static>> {
    clears_of(sheet, n)
}

fn clears_of(sheet: &[u8], slot: usize) -> Vec<Timed<'static>> {
    [
        library::clear,
        baseline::clear::<Looped>,
        baseline::clear::<SameIdeas>,
        reference::clear,
    ]
    .map(|clear| {
        let mut sheet = sheet.to_vec();
        timed(move || clear(black_box(&mut sheet), black_box(slot)))
    })
    .into()
}

// ---- PRESENT ----

/// The values of byte 2 that mean it.
const PRESENT: [usize; 2] = [21, 24];

fn present_blocks(meter: &mut Meter, random: &mut Random) {
    meter.head(
        "PRESENT, one block: ns for each block",
        "\
Beside optimised Rust with the same tables of 256 entries, which are statics in both.",
        "Call | Key bits | Library | Rust | Ratio | Instructions | Second program",
    );
    let calls: [(&str, [BaselineCall; 3]); 2] = [
        (
            "encrypt",
            [
                library::present_encrypt_block,
                present::encrypt_block,
                reference::present_encrypt_block,
            ],
        ),
        (
            "decrypt",
            [
                library::present_decrypt_block,
                present::decrypt_block,
                reference::present_decrypt_block,
            ],
        ),
    ];
    for (name, calls) in calls {
        for t in PRESENT {
            let (key, block) = (random.bytes(key_bytes(t)), random.block());
            let (key, block) = (&key[..], &block[..]);
            let row = meter.row(Vec::from(calls.map(|call| {
                let mut out = [0; 8];
                timed(move || {
                    let (key, block) = black_box((key, block));
                    call(key, block, black_box(&mut out))
                })
            })));
            meter.aim(Aims::Present, row.ratio(0, 1));
            meter.print(&[
                name,
                &(8 * key_bytes(t)).to_string(),
                &figure(row.nanoseconds(0)),
                &figure(row.nanoseconds(1)),
                &row.ratio_cell(0, 1),
                &row.instructions(0, 1),
                &figure(row.nanoseconds(2)),
            ]);
        }
    }
}

fn present_sheets(meter: &mut Meter, random: &mut Random) {
    meter.head(
        "PRESENT, sheets: µs for each call",
        "\
Full sheets of 16 slots of edition 3, as above. Both open the field of a read in one walk.",
        "Call | Key bits | Library | Rust | Ratio | Instructions | Second program",
    );
    let calls: [(&str, SheetCalls); 2] = [("read", reads), ("write, ASCII", ascii_writes)];
    for (name, calls) in calls {
        for t in PRESENT {
            let keys = Keys::unlike(random, t);
            let mut sheet = keys.blank_sheet(Edition::BLANKED, 16, t);
            fill(random, &keys, &mut sheet, 16);
            // The two styles are one here.
            let mut calls = calls(&keys, &sheet, 16);
            drop(calls.remove(2));
            let row = meter.row(calls);
            meter.aim(Aims::Present, row.ratio(0, 1));
            meter.print(&[
                name,
                &(8 * key_bytes(t)).to_string(),
                &figure(row.nanoseconds(0) / 1000.0),
                &figure(row.nanoseconds(1) / 1000.0),
                &row.ratio_cell(0, 1),
                &row.instructions(0, 1),
                &figure(row.nanoseconds(2) / 1000.0),
            ]);
        }
    }
}

// ---- Texts ----

fn texts(meter: &mut Meter, random: &mut Random) {
    meter.head(
        "Texts: ns for each caption of 192 bytes",
        "\
A write to a worn sheet of edition 1 with one slot makes every test and no block: it is
refused with 8, after the test of the text. Its scan is what it takes more than the same
write of an empty caption, by the medians of both. The baseline's scan is from_utf8,
measured in the same way, and beside it alone. captions_broken_at looks for the place
where a text breaks, and a write doesn't.",
        "Text | Library, refused write | Its scan | Baseline, refused write | Its scan | Ratio of the scans | Instructions of the scans | from_utf8 alone | captions_broken_at | Second program's scan",
    );
    let keys = Keys::unlike(random, 8);
    let mut worn = keys.blank_sheet(Edition::One, 1, 8);
    set_last_number(&mut worn, u32::MAX);
    for (name, letters) in [
        ("ASCII", "A"),
        ("an accent among 10 of ASCII", "porcelain\u{e9} "),
        ("2-byte letters", "\u{e9}"),
        ("3-byte letters", "\u{20ac}"),
        ("4-byte letters", "\u{1f3fa}"),
    ] {
        let text = letters.repeat(FIELD / letters.len()).into_bytes();
        let row = meter.row(scans(&keys, &worn, &text));
        let (ours, theirs) = (row.more(0, 1), row.more(2, 3));
        meter.print(&[
            name,
            &figure(row.nanoseconds(0)),
            &figure(ours),
            &figure(row.nanoseconds(2)),
            &figure(theirs),
            &format!("{:.2}", ours / theirs),
            &row.more_instructions([0, 1, 2, 3]),
            &figure(row.nanoseconds(4)),
            &figure(row.nanoseconds(5)),
            &figure(row.nanoseconds(6)),
        ]);
    }
}

/// The library's refused write of a text and of none, the baseline's, and the scans
/// alone.
fn scans<'a>(keys: &'a Keys, worn: &[u8], text: &'a [u8]) -> Vec<Timed<'a>> {
    let refused = |write: Write, text: &'a [u8]| {
        let mut worn = worn.to_vec();
        timed(move || {
            let (keys, text) = black_box((keys, text));
            write(&keys.sealing, &keys.checking, black_box(&mut worn), 0, text)
        })
    };
    let baseline: Write = |k, m, s, i, c| pointed(baseline::write::<Looped>(k, m, s, i, c));
    vec![
        refused(library::write, text),
        refused(library::write, b""),
        refused(baseline, text),
        refused(baseline, b""),
        timed(move || from_utf8(black_box(text)).is_ok()),
        timed(move || library::broken_at(black_box(text))),
        timed(move || reference::well_formed(black_box(text))),
    ]
}

// ---- Dates ----

/// How many conversions are timed as one.
const CONVERSIONS: usize = 256;

fn conversions(meter: &mut Meter, random: &mut Random) {
    meter.head(
        "Dates: ns for each conversion",
        "\
256 days from all of 2000 to 2099 in no order, and their dates, gone through in a loop,
which is part of the figures.",
        "Call | Library | Baseline | Same ideas in Rust | Ratio | To same ideas | Instructions | Second program",
    );
    let days: Vec<usize> = (0..CONVERSIONS)
        .map(|_| random.below(LAST_DAY + 1))
        .collect();
    let dates: Vec<Date> = days.iter().map(|day| date_of(*day)).collect();
    let rows = [
        ("day of date", days_of_dates(&dates)),
        ("date of day", dates_of_days(&days)),
    ];
    for (name, calls) in rows {
        let row = meter.row_of(CONVERSIONS, calls);
        meter.aim(Aims::Conversions, row.ratio(0, 1));
        meter.print(&[
            name,
            &figure(row.nanoseconds(0)),
            &figure(row.nanoseconds(1)),
            &figure(row.nanoseconds(2)),
            &row.ratio_cell(0, 1),
            &row.ratio_cell(0, 2),
            &row.instructions(0, 1),
            &figure(row.nanoseconds(3)),
        ]);
    }
}

/// Year, month and day.
type Date = [usize; 3];

fn date_of(day: usize) -> Date {
    let date = reference::date_of_day(day);
    [date.year.into(), date.month.into(), date.day.into()]
}

/// Each call is one of its own to the compiler, so that the library's costs no
/// second call through a pointer.
fn each<'a, I: Copy, O>(inputs: &'a [I], convert: impl Fn(I) -> O + 'a) -> Timed<'a> {
    timed(move || {
        for input in black_box(inputs) {
            black_box(convert(*input));
        }
    })
}

fn days_of_dates(dates: &[Date]) -> Vec<Timed<'_>> {
    vec![
        each(dates, |[y, m, d]| library::day_of_date(y, m, d)),
        each(dates, |[y, m, d]| dates::day_of_date::<Looped>(y, m, d)),
        each(dates, |[y, m, d]| dates::day_of_date::<SameIdeas>(y, m, d)),
        each(dates, |[y, m, d]| reference::day_of_date(y, m, d)),
    ]
}

fn dates_of_days(days: &[usize]) -> Vec<Timed<'_>> {
    vec![
        each(days, library::date_of_day),
        each(days, dates::date_of_day::<Looped>),
        each(days, dates::date_of_day::<SameIdeas>),
        each(days, reference::date_of_day),
    ]
}
