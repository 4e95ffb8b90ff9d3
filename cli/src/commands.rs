//! What each command does.

use crate::blank_sheet::{blank_sheet, repeats_starts};
use crate::caption::{self, Source};
use crate::cipher::{with_bits, Asked};
use crate::date;
use crate::exchange::{self, caption_in, Import};
use crate::failure::Failure;
use crate::hex;
use crate::input;
use crate::keys::{key_of_file, Keys};
use crate::kind::Kind;
use crate::listing::{self, Listing, Verified};
use crate::map;
use crate::order::Order;
use crate::panel::{self, First};
use crate::reasons::Given;
use crate::sheet_file;
use crate::shown::shown;
use crate::terminal::{hint, print, print_caption, warn};
use crate::terms::{self, Term};
use crate::words::{self, wrong_for, Request, Words};
use captions::{Change, Fault, Refusal, BLOCK, FIELD};
use std::ffi::{OsStr, OsString};
use std::os::unix::ffi::OsStrExt;
use std::path::Path;
use std::time::Duration;

/// How long a command waits for a folder's lock if it isn't told.
const WAIT: usize = 30;

/// Does what the words after the program's name say.
pub fn run(words: &[OsString]) -> Result<(), Failure> {
    match words::request(words)? {
        Request::Print(text) => print(text.as_bytes()),
        Request::Run(page, words) => {
            run_command(page.name, &words).map_err(|failure| match failure {
                Failure::Usage(message) => wrong_for(page, &message),
                Failure::Refused(Refusal::NoSuchDate, _) => {
                    hint("a date is YYYY-MM-DD, from 2000-01-01 to 2099-12-31");
                    failure
                }
                Failure::Refused(Refusal::OtherKeys, _) => {
                    hint(
                        "the sheet was blanked with other keys, or its cipher, serial or mark was changed",
                    );
                    failure
                }
                other => other,
            })
        }
    }
}

fn run_command(name: &str, words: &Words) -> Result<(), Failure> {
    let (first, second, third) = (words.operand(0), words.operand(1), words.operand(2));
    let file = Path::new(first);
    match name {
        "blank" => blank(file, second, third, words),
        "write" => write(file, second, Path::new(third), words),
        "read" => read(file, second, Path::new(third), words),
        "clear" => clear(file, second, words),
        "list" => list(file, words),
        "map" => map(file, words),
        "verify" => verify(file, Path::new(second), words),
        "export" => export(file, Path::new(second)),
        "import" => import(file, Path::new(second), words),
        "keys" => keys(file, second, words),
        "terms" => terms(file, words),
        "terms-blank" => terms_blank(file, second, words),
        "terms-set" => terms_set(file, second, words),
        "order" => order(file, Path::new(second), third, words),
        "bench" => bench(file, second, third),
        "panel" => panel(file, second, words),
        _ => Err(Failure::Usage(format!("{name} takes no words"))),
    }
}

fn blank(file: &Path, slots: &OsStr, cipher: &OsStr, words: &Words) -> Result<(), Failure> {
    let (slots, cipher) = (number("SLOTS", slots)?, Asked::of_word(cipher)?);
    let (serial, wait) = (serial(words.operand(3))?, wait(words)?);
    let keys = Path::new(words.operand(4));
    not_another(("FILE", file), &[("KEYS", keys)])?;
    let keys = Keys::of_file(keys)?;
    let given = Given {
        keys: Some(&keys),
        slots: Some(slots),
        cipher: Some(cipher),
        ..Given::default()
    };
    let sheet =
        blank_sheet(slots, cipher, serial, &keys).map_err(|refusal| given.refused(refusal))?;
    let force = words.has("--force");
    sheet_file::create(file, wait, &sheet, force, Kind::Sheet, |old| {
        let repeats = !words.has("--force-serial") && repeats_starts(old, cipher, serial, &keys);
        repeats.then(|| {
            format!(
                "the sheet there has serial {serial} already, under these keys: captions would be \
                 sealed from the same starts as before; take another serial, or --force-serial"
            )
        })
    })
}

fn write(file: &Path, slot: &OsStr, keys: &Path, words: &Words) -> Result<(), Failure> {
    let (slot, wait) = (number("SLOT", slot)?, wait(words)?);
    let source = Source::of(words)?;
    one_from_standard_input(&[input::is_standard(keys), source.is_standard_input()])?;
    not_another(("FILE", file), &[("KEYS", keys), ("NAME", source.file())])?;
    let keys = Keys::of_file(keys)?;
    let caption = source.bytes("caption")?;
    let mut is_there = false;
    let changed = sheet_file::change(file, wait, |sheet| {
        is_there = !words.has("--again") && holds(sheet, &keys, slot, &caption);
        if is_there {
            return Ok(());
        }
        let written = captions::write(&keys.sealing, &keys.checking, sheet, slot, &caption);
        written.map_err(|refusal| {
            let given = Given {
                sheet: Some(sheet),
                keys: Some(&keys),
                slot: Some(slot),
                caption: Some(caption.len()),
                ..Given::default()
            };
            given.refused(refusal)
        })
    });
    if let Err(Failure::Refused(Refusal::BrokenText(_), _)) = changed {
        caption::hint_at_character_set(&caption);
    }
    changed?;
    if is_there {
        warn(&format!(
            "unchanged: slot {slot} holds that caption; --again writes it all the same"
        ));
    }
    caption::hint_at_line_feed(&caption);
    Ok(())
}

/// Whether a slot holds a caption already. What can't be read is for the write to
/// refuse.
fn holds(sheet: &[u8], keys: &Keys, slot: usize, caption: &[u8]) -> bool {
    matches!(caption_in(sheet, keys, slot), Ok(Some(there)) if there == caption)
}

fn read(file: &Path, slot: &OsStr, keys: &Path, words: &Words) -> Result<(), Failure> {
    let (slot, dated) = (number("SLOT", slot)?, dated(words)?);
    let terms = dated.map(|(terms, _)| terms);
    let read = [Some(file), Some(keys), terms];
    one_from_standard_input(&read.map(|path| path.is_some_and(input::is_standard)))?;
    let keys = Keys::of_file(keys)?;
    let (sealing, checking) = (&keys.sealing, &keys.checking);
    let sheet = sheet_file::read(file)?;
    let terms = terms.map(sheet_file::read).transpose()?;
    let mut window = [0; FIELD];
    let read = match (&terms, dated) {
        (Some(terms), Some((_, date))) => {
            // What is no date becomes a day that there isn't, so that the library
            // says which of its refusals comes first.
            let day = date::day_of(date).map_or(usize::MAX, usize::from);
            captions::dated_read(sealing, checking, &sheet, terms, slot, day, &mut window)
        }
        _ => captions::read(sealing, checking, &sheet, slot, &mut window),
    };
    let given = Given {
        sheet: Some(&sheet),
        terms: terms.as_deref(),
        keys: Some(&keys),
        slot: Some(slot),
        ..Given::default()
    };
    let length = read.map_err(|refusal| given.refused(refusal))?;
    print_caption(window.get(..length).unwrap_or(&window))
}

fn clear(file: &Path, slot: &OsStr, words: &Words) -> Result<(), Failure> {
    let slot = number("SLOT", slot)?;
    sheet_file::change(file, wait(words)?, |sheet| {
        captions::clear(sheet, slot).map_err(|refusal| {
            let given = Given {
                sheet: Some(sheet),
                slot: Some(slot),
                ..Given::default()
            };
            given.refused(refusal)
        })
    })
}

fn list(file: &Path, words: &Words) -> Result<(), Failure> {
    print_list(&sheet_file::read(file)?, words.has("--json"))
}

/// Prints a listing, and on standard error why a sheet is unfit.
fn print_list(sheet: &[u8], json: bool) -> Result<(), Failure> {
    let reason = listing::unfit(sheet);
    match json {
        true => print(listing::json(sheet, reason.as_deref()).as_bytes())?,
        false => print(&captions::list(sheet))?,
    }
    if let Some(reason) = reason {
        warn(&format!("unfit sheet: {reason}"));
    }
    Ok(())
}

fn map(file: &Path, words: &Words) -> Result<(), Failure> {
    let dated = dated(words)?;
    let terms = dated.map(|(terms, _)| terms);
    let read = [Some(file), terms];
    one_from_standard_input(&read.map(|path| path.is_some_and(input::is_standard)))?;
    if words.has("--json") {
        return list(file, words);
    }
    let sheet = sheet_file::read(file)?;
    let terms = terms.map(sheet_file::read).transpose()?;
    let Some(listing) = Listing::of_sheet(&sheet) else {
        return print_list(&sheet, false);
    };
    let given = Given {
        sheet: Some(&sheet),
        terms: terms.as_deref(),
        ..Given::default()
    };
    let day = match dated {
        Some((_, date)) => date::day_of(date).map_or(usize::MAX, usize::from),
        None => 0,
    };
    if terms
        .as_deref()
        .is_some_and(|terms| terms::slots_in(terms) != Some(listing.slots))
    {
        return Err(given.refused(Refusal::UnfitSheet(Fault::Terms)));
    }
    let map = map::map(&listing, terms.as_deref().map(|terms| (terms, day)));
    print(map.map_err(|refusal| given.refused(refusal))?.as_bytes())
}

fn verify(file: &Path, keys: &Path, words: &Words) -> Result<(), Failure> {
    one_from_standard_input(&[input::is_standard(file), input::is_standard(keys)])?;
    let keys = Keys::of_file(keys)?;
    let sheet = sheet_file::read(file)?;
    let verified = match Verified::of_sheet(&sheet, &keys) {
        Ok(verified) => verified,
        Err(refusal) => {
            let given = Given {
                sheet: Some(&sheet),
                keys: Some(&keys),
                ..Given::default()
            };
            if words.has("--json") {
                let reason = given.reason(refusal);
                print(listing::refused_json(&sheet, refusal, reason.as_deref()).as_bytes())?;
            }
            return Err(given.refused(refusal));
        }
    };
    let report = match words.has("--json") {
        true => verified.json(&sheet),
        false => verified.text(),
    };
    print(report.as_bytes())?;
    match verified.altered() {
        0 => Ok(()),
        _ => Err(Refusal::Altered(Change::Unnamed).into()),
    }
}

fn export(file: &Path, keys: &Path) -> Result<(), Failure> {
    one_from_standard_input(&[input::is_standard(file), input::is_standard(keys)])?;
    exchange::export(file, keys)
}

fn import(file: &Path, keys: &Path, words: &Words) -> Result<(), Failure> {
    let table = Path::new(words.value("--file").unwrap_or(OsStr::new("-")));
    let standard = [file, keys, table].map(input::is_standard);
    one_from_standard_input(&standard)?;
    not_another(("FILE", file), &[("KEYS", keys), ("NAME", table)])?;
    Import {
        file,
        keys,
        table,
        may_clear: words.has("--clear"),
        force: words.has("--force"),
        dry_run: words.has("--dry-run"),
        wait: wait(words)?,
    }
    .run()
}

fn keys(file: &Path, bits: &OsStr, words: &Words) -> Result<(), Failure> {
    let bits = number("BITS", bits)?;
    let given = Given {
        bits: Some(bits),
        ..Given::default()
    };
    let cipher = with_bits(bits).ok_or_else(|| given.refused(Refusal::WrongKey))?;
    let keys = Keys::random(cipher.key_bytes())?;
    sheet_file::create_private(file, wait(words)?, keys.text().as_bytes())
}

fn terms(file: &Path, words: &Words) -> Result<(), Failure> {
    let sheet = sheet_file::read(file)?;
    let reason = terms::unfit(&sheet);
    let text = match words.has("--json") {
        true => terms::json(&sheet, reason.as_deref()),
        false => terms::text(&sheet),
    };
    print(text.as_bytes())?;
    if let Some(reason) = reason {
        warn(&format!("unfit term sheet: {reason}"));
    }
    Ok(())
}

fn terms_blank(file: &Path, slots: &OsStr, words: &Words) -> Result<(), Failure> {
    let slots = number("SLOTS", slots)?;
    let given = Given {
        slots: Some(slots),
        ..Given::default()
    };
    let sheet = terms::blank(slots).map_err(|refusal| given.refused(refusal))?;
    let (wait, force) = (wait(words)?, words.has("--force"));
    sheet_file::create(file, wait, &sheet, force, Kind::Terms, |_| None)
}

fn terms_set(file: &Path, slot: &OsStr, words: &Words) -> Result<(), Failure> {
    let (slot, wait) = (number("SLOT", slot)?, wait(words)?);
    let term = match words.has("--never") {
        true => Term::NEVER,
        false => term_of(words.operand(2), words.operand(3))?,
    };
    sheet_file::change(file, wait, |sheet| {
        terms::set(sheet, slot, term).map_err(|refusal| {
            let given = Given {
                terms: Some(sheet),
                slot: Some(slot),
                ..Given::default()
            };
            given.refused(refusal)
        })
    })
}

fn order(file: &Path, terms: &Path, date: &OsStr, words: &Words) -> Result<(), Failure> {
    let keys = words.value("--keys").map(Path::new);
    if keys.is_some() && !words.has("--table") {
        return Err(Failure::Usage("--keys goes with --table".to_string()));
    }
    let read = [Some(file), Some(terms), keys];
    one_from_standard_input(&read.map(|path| path.is_some_and(input::is_standard)))?;
    let keys = keys.map(Keys::of_file).transpose()?;
    let (sheet, terms) = (sheet_file::read(file)?, sheet_file::read(terms)?);
    let (sheet, terms, keys) = (sheet.as_slice(), terms.as_slice(), keys.as_ref());
    let given = Given {
        sheet: Some(sheet),
        terms: Some(terms),
        keys,
        ..Given::default()
    };
    let order = Order {
        sheet,
        terms,
        date,
        keys,
    };
    let showings = order.showings();
    let (text, unread) = match &showings {
        Ok(showings) if words.has("--table") => order.table(showings),
        _ => (
            order.text().map_err(|refusal| given.refused(refusal))?,
            None,
        ),
    };
    print(&text)?;
    let showings = showings.map_err(|refusal| given.refused(refusal))?;
    if showings.is_empty() {
        hint("nothing is on show on that day");
    }
    unread.map_or(Ok(()), |refusal| Err(given.refused(refusal)))
}

fn bench(key: &Path, round: &OsStr, array: &OsStr) -> Result<(), Failure> {
    let (round, array) = (number("ROUND", round)?, array_of(array)?);
    let key = key_of_file(key)?;
    let mut block = [0; BLOCK];
    let given = Given {
        key: Some(&key),
        round: Some(round),
        array: Some(&array),
        ..Given::default()
    };
    let found = captions::bench_block(&key, round, &array, &mut block);
    found.map_err(|refusal| given.refused(refusal))?;
    print(format!("{}\n", hex::digits_of(&block)).as_bytes())
}

fn panel(key: &Path, first: &OsStr, words: &Words) -> Result<(), Failure> {
    let (first, wait) = (First::of(first)?, wait(words)?);
    let (source, output) = (
        panel::source(words)?,
        words.value("--output").map(Path::new),
    );
    one_from_standard_input(&[input::is_standard(key), source.is_standard_input()])?;
    if let Some(output) = output {
        let read = [("KEYFILE", key), ("--file", source.file())];
        not_another(("--output", output), &read)?;
    }
    let key = key_of_file(key)?;
    let panel = source.bytes("panel")?;
    let mut sealed = vec![0; panel.len()];
    let given = Given {
        key: Some(&key),
        panel: Some(panel.len()),
        ..Given::default()
    };
    let done = captions::panel(&key, first.number, &panel, &mut sealed);
    done.map_err(|refusal| given.refused(refusal))?;
    match output {
        Some(output) => sheet_file::put(output, wait, &sealed, words.has("--force"))?,
        None => print_caption(&sealed)?,
    }
    warn(&format!(
        "the first free number after this panel is {}",
        first.after(panel.len())
    ));
    Ok(())
}

// ---- Their words ----

/// The term sheet and the date of a dated read; none where it isn't dated.
fn dated<'a>(words: &Words<'a>) -> Result<Option<(&'a Path, &'a OsStr)>, Failure> {
    match (words.value("--terms"), words.value("--on")) {
        (Some(terms), Some(date)) => Ok(Some((Path::new(terms), date))),
        (None, None) => Ok(None),
        _ => Err(Failure::Usage(
            "--terms and --on are given together or not at all".to_string(),
        )),
    }
}

/// A term by its dates, the second not before the first: what would mean "never"
/// is nearly always a slip.
fn term_of(opening: &OsStr, closing: &OsStr) -> Result<Term, Failure> {
    let (opening, closing) = (date::day_of(opening)?, date::day_of(closing)?);
    match opening <= closing {
        true => Ok(Term { opening, closing }),
        false => Err(Failure::Usage(
            "OPENING is after CLOSING; --never keeps a slot off show".to_string(),
        )),
    }
}

/// A decimal number. One that is too large for the machine becomes the largest,
/// which is out of every range that the library tests too.
fn number(name: &str, word: &OsStr) -> Result<usize, Failure> {
    let digits = word.to_str().unwrap_or_default();
    if digits.is_empty() || !digits.bytes().all(|byte| byte.is_ascii_digit()) {
        let message = format!("{name} is a decimal number, not {}", shown(word));
        return Err(Failure::Usage(message));
    }
    Ok(digits.parse().unwrap_or(usize::MAX))
}

/// An array of hex digits. How many there are is for the library to judge.
fn array_of(word: &OsStr) -> Result<Vec<u8>, Failure> {
    let digits = hex::bytes_of(word.as_bytes()).filter(|bytes| !bytes.is_empty());
    digits.ok_or_else(|| Failure::Usage(format!("ARRAY is 16 hex digits, not {}", shown(word))))
}

/// A serial: the library takes every one, so one that is no 16-bit number never
/// gets there.
fn serial(word: &OsStr) -> Result<u16, Failure> {
    u16::try_from(number("SERIAL", word)?)
        .map_err(|_| Failure::Usage(format!("SERIAL is 0 to 65535, not {}", shown(word))))
}

/// How long to wait for a folder's lock.
fn wait(words: &Words) -> Result<Duration, Failure> {
    let seconds = match words.value("--wait") {
        Some(word) => number("SECONDS", word)?,
        None => WAIT,
    };
    Ok(Duration::from_secs(seconds as u64))
}

/// The file that is to be replaced isn't one that is read, by whatever names.
fn not_another((file, path): (&str, &Path), others: &[(&str, &Path)]) -> Result<(), Failure> {
    let this = input::identity(path);
    match others
        .iter()
        .find(|(_, other)| input::identity(other) == this)
    {
        Some((name, _)) if this.is_some() => {
            let message = format!("{file} and {name} are the same file");
            Err(Failure::Usage(message))
        }
        _ => Ok(()),
    }
}

/// Standard input holds one thing.
fn one_from_standard_input(are_standard: &[bool]) -> Result<(), Failure> {
    match are_standard.iter().filter(|is| **is).count() {
        0 | 1 => Ok(()),
        _ => Err(Failure::Usage(
            "standard input can't be two things at once".to_string(),
        )),
    }
}
