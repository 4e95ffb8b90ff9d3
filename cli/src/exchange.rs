//! A whole sheet as a table, and a table's captions into a sheet.

use crate::failure::Failure;
use crate::header;
use crate::input;
use crate::keys::Keys;
use crate::listing::Listing;
use crate::reasons::Given;
use crate::sheet_file;
use crate::table::{self, Row, Rows};
use crate::terminal::{print, prompt, warn};
use captions::{Refusal, FIELD};
use std::path::Path;
use std::time::Duration;

/// Far above any table of 256 slots; what is longer isn't read on.
const MOST_BYTES: usize = 1 << 24;

/// Prints a sheet as a table. Altered slots are left out and named.
pub fn export(file: &Path, keys: &Path) -> Result<(), Failure> {
    let keys = Keys::of_file(keys)?;
    let sheet = sheet_file::read(file)?;
    let mut text = table::header();
    let mut altered = Vec::new();
    let listing = Listing::of_sheet(&sheet);
    let slots = listing.as_ref().map_or(1, |listing| listing.slots);
    for slot in 0..slots {
        match caption_in(&sheet, &keys, slot) {
            Ok(caption) => {
                let (write, serial) = state_of(slot, &sheet, listing.as_ref());
                text += &table::line_of(slot, caption.as_deref(), write, serial);
            }
            Err(Refusal::Altered(change)) => altered.push((slot, change)),
            Err(refusal) => return Err(unusable(&sheet, &keys, refusal)),
        }
    }
    print(text.as_bytes())?;
    for (slot, change) in &altered {
        warn(&format!(
            "slot {slot} is altered and not in the table: {change}"
        ));
    }
    match altered.is_empty() {
        true => Ok(()),
        false => Err(Refusal::Altered(captions::Change::Unnamed).into()),
    }
}

/// The write number of a slot and the serial, on a sheet with this listing.
fn state_of(slot: usize, sheet: &[u8], listing: Option<&Listing>) -> (u32, u16) {
    let write = listing.map_or(0, |listing| listing.write_number(slot));
    (write, header::serial(sheet).unwrap_or(0))
}

/// A sheet or keys that can't be used at all.
fn unusable(sheet: &[u8], keys: &Keys, refusal: Refusal) -> Failure {
    let given = Given {
        sheet: Some(sheet),
        keys: Some(keys),
        ..Given::default()
    };
    given.refused(refusal)
}

/// The caption of a slot; none if it is blank.
pub fn caption_in(sheet: &[u8], keys: &Keys, slot: usize) -> Result<Option<Vec<u8>>, Refusal> {
    let mut window = [0; FIELD];
    match captions::read(&keys.sealing, &keys.checking, sheet, slot, &mut window) {
        Ok(length) => Ok(Some(window.iter().take(length).copied().collect())),
        Err(Refusal::Blank) => Ok(None),
        Err(refusal) => Err(refusal),
    }
}

/// What an import is to do.
pub struct Import<'a> {
    pub file: &'a Path,
    pub keys: &'a Path,
    pub table: &'a Path,
    pub may_clear: bool,
    /// Whether a slot that the table changes and somebody else too is written all
    /// the same.
    pub force: bool,
    pub dry_run: bool,
    pub wait: Duration,
}

impl Import<'_> {
    /// Writes the captions of a table into a sheet, or says what that would do.
    pub fn run(&self) -> Result<(), Failure> {
        let keys = Keys::of_file(self.keys)?;
        let table = Table::of_file(self.table)?;
        if !table.is_exported {
            let name = &table.name;
            warn(&format!(
                "{name}: no write numbers, so that nothing tells what was written since"
            ));
        }
        let mut done = Done::default();
        match self.dry_run {
            true => {
                let mut sheet = sheet_file::read(self.file)?;
                done = self.changed(&mut sheet, &keys, &table)?;
                print(done.report.as_bytes())?;
            }
            false => sheet_file::change(self.file, self.wait, |sheet| {
                done = self.changed(sheet, &keys, &table)?;
                Ok(())
            })?,
        }
        for line in done.left_alone {
            let name = &table.name;
            warn(&format!("{name}: {line}"));
        }
        Ok(())
    }

    /// Changes a sheet to have the captions of the rows. Where a line is wrong, it
    /// says so of every such line.
    fn changed(&self, sheet: &mut [u8], keys: &Keys, table: &Table) -> Result<Done, Failure> {
        // Keys or a sheet that can't be used at all are no line's fault.
        match caption_in(sheet, keys, 0) {
            Ok(_) | Err(Refusal::Altered(_)) => {}
            Err(refusal) => return Err(unusable(sheet, keys, refusal)),
        }
        let before = sheet.to_vec();
        let listing = Listing::of_sheet(&before);
        // A sheet that was never written has nothing to lose.
        let is_new = listing.as_ref().is_some_and(|listing| listing.last == 0);
        let mut faults = Faults::new(table);
        let (mut done, mut writes, mut clears) = (Done::default(), 0, 0);
        for row in &table.rows {
            let now = state_of(row.slot, &before, listing.as_ref());
            let stale = match is_new || !table.is_exported {
                true => None,
                false => stale(row, now),
            };
            match self.change(row, stale, sheet, keys) {
                Ok(Change::None) => {}
                Ok(Change::Write(line)) => {
                    writes += 1;
                    done.report += &line;
                }
                Ok(Change::Clear(line)) => {
                    clears += 1;
                    done.report += &line;
                }
                Ok(Change::LeftAlone(why)) => {
                    let (line, slot) = (row.line, row.slot);
                    let words = "the table doesn't change it, so it stays";
                    done.left_alone
                        .push(format!("line {line}: slot {slot}: {why}; {words}"));
                }
                Err(fault) => faults.push(row, fault, &before),
            }
        }
        faults.into_failure()?;
        let unchanged = table.rows.len() - writes - clears;
        done.report += &format!("writes {writes} clears {clears} unchanged {unchanged}\n");
        Ok(done)
    }

    /// Does what a row asks for, if the slot isn't as it asks already.
    fn change(
        &self,
        row: &Row,
        stale: Option<Stale>,
        sheet: &mut [u8],
        keys: &Keys,
    ) -> Result<Change, LineFault> {
        let slot = row.slot;
        let old = caption_in(sheet, keys, slot)?;
        if row.caption == old {
            return Ok(Change::None);
        }
        match stale {
            Some(Stale::Elsewhere(why)) if row.is_untouched() => {
                return Ok(Change::LeftAlone(why));
            }
            Some(Stale::Elsewhere(why) | Stale::Unknown(why)) if !self.force => {
                return Err(LineFault::Stale(why));
            }
            _ => {}
        }
        let text = table::text_of(old.as_deref());
        match &row.caption {
            Some(new) => {
                captions::write(&keys.sealing, &keys.checking, sheet, slot, new)?;
                let (bytes, new) = (new.len(), table::text_of(Some(new)));
                let line = format!("{slot}\twrite\t{bytes} of {FIELD}\t{text}\t{new}\n");
                Ok(Change::Write(line))
            }
            None if !self.may_clear => Err(LineFault::WouldClear),
            None => {
                captions::clear(sheet, slot)?;
                Ok(Change::Clear(format!("{slot}\tclear\t\t{text}\t\n")))
            }
        }
    }
}

/// What an import has done.
#[derive(Default)]
struct Done {
    /// A line for each change, and their counts.
    report: String,
    /// The lines whose slots somebody else changed since, and which don't.
    left_alone: Vec<String>,
}

/// What comes of a row, as a line of the report.
enum Change {
    None,
    Write(String),
    Clear(String),
    /// Why the slot isn't as the line was taken from it.
    LeftAlone(String),
}

/// Why what a slot is now isn't what a line was taken from.
enum Stale {
    /// Somebody wrote or cleared it on this sheet.
    Elsewhere(String),
    /// The line is of another sheet, or nothing says of which.
    Unknown(String),
}

/// None where the slot is as the line was taken from it. A line without numbers
/// may still be written to a blank slot.
fn stale(row: &Row, (number, serial): (u32, u16)) -> Option<Stale> {
    match &row.taken {
        Some(taken) if taken.serial != serial => Some(Stale::Unknown(format!(
            "of another sheet, with serial {}; this one has {serial}",
            taken.serial
        ))),
        Some(taken) if taken.write == number => None,
        Some(taken) if number == 0 => Some(Stale::Elsewhere(format!(
            "cleared since: the table has write number {}",
            taken.write
        ))),
        Some(taken) => Some(Stale::Elsewhere(format!(
            "written since: write number {number}, where the table has {}",
            taken.write
        ))),
        None if number == 0 => None,
        None => Some(Stale::Unknown(
            "no write number, and the slot is written".to_string(),
        )),
    }
}

/// The rows of a table, what is wrong with its other lines, and what messages
/// call it.
struct Table {
    name: String,
    rows: Vec<Row>,
    faults: Vec<(usize, String)>,
    is_exported: bool,
}

impl Table {
    fn of_file(path: &Path) -> Result<Table, Failure> {
        if input::is_standard(path) {
            prompt("type or paste the table; Ctrl-D on an empty line ends it");
        }
        let input = input::of_file(path)?;
        let name = input.name.clone();
        let bytes = input.bytes(MOST_BYTES + 1)?;
        let rows = match bytes.len() {
            0 => return Err(Failure::NoInput(format!("{name}: no table"))),
            1..=MOST_BYTES => table::rows(&bytes),
            _ => Err("too long for a table".to_string()),
        };
        match rows {
            Ok(Rows {
                rows,
                faults,
                is_exported,
            }) => Ok(Table {
                name,
                rows,
                faults,
                is_exported,
            }),
            Err(fault) => Err(Failure::Data(format!("{name}: {fault}"))),
        }
    }
}

/// Why a line isn't imported.
enum LineFault {
    Refused(Refusal),
    Stale(String),
    WouldClear,
}

impl From<Refusal> for LineFault {
    fn from(refusal: Refusal) -> LineFault {
        LineFault::Refused(refusal)
    }
}

/// What is wrong with the lines of a table, all of them.
struct Faults<'a> {
    table: &'a Table,
    lines: Vec<(usize, String)>,
    refusal: Option<Refusal>,
    is_form: bool,
    is_stale: bool,
}

impl<'a> Faults<'a> {
    fn new(table: &'a Table) -> Faults<'a> {
        Faults {
            table,
            lines: table.faults.clone(),
            refusal: None,
            is_form: !table.faults.is_empty(),
            is_stale: false,
        }
    }

    fn push(&mut self, row: &Row, fault: LineFault, sheet: &[u8]) {
        let slot = row.slot;
        let words = match fault {
            LineFault::Refused(refusal) => {
                self.refusal.get_or_insert(refusal);
                let given = Given {
                    sheet: Some(sheet),
                    slot: Some(slot),
                    caption: row.caption.as_ref().map(Vec::len),
                    ..Given::default()
                };
                match given.reason(refusal) {
                    Some(reason) => format!("{}: {reason}", refusal.word()),
                    None => refusal.word().to_string(),
                }
            }
            LineFault::Stale(words) => {
                (self.is_form, self.is_stale) = (true, true);
                words
            }
            LineFault::WouldClear => {
                self.is_form = true;
                "no text, but it has a caption; --clear makes it blank, \\& empty".to_string()
            }
        };
        self.lines.push((row.line, format!("slot {slot}: {words}")));
    }

    /// A line for each of them, in their order. The number is that of the first
    /// refusal, unless a line is wrong for another reason.
    fn into_failure(mut self) -> Result<(), Failure> {
        if self.lines.is_empty() {
            return Ok(());
        }
        self.lines.sort();
        let name = &self.table.name;
        let mut lines: Vec<String> = (self.lines.iter())
            .map(|(line, fault)| format!("{name}: line {line}: {fault}"))
            .collect();
        if self.is_stale {
            lines.push(format!(
                "{name}: export the sheet again, or take those lines out and their slots stay; \
                 --force writes them all the same"
            ));
        }
        let refusal = self.refusal.filter(|_| !self.is_form);
        Err(Failure::Lines(lines, refusal))
    }
}
