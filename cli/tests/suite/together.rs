//! Several commands at once on one sheet.

use crate::support::*;
use crate::words;
use std::ffi::OsString;
use std::fs;
use std::io::Write;
use std::path::PathBuf;
use std::process::{Command, Stdio};
use std::sync::atomic::{AtomicUsize, Ordering};
use std::time::Duration;

const CURATORS: usize = 4;
const WRITES: usize = 15;

/// Every write is kept, and every write number is used once.
#[test]
fn writes_at_once_are_all_kept() {
    let scratch = Scratch::new();
    let (file, keys) = (scratch.sheet("sheet", CURATORS, 4), scratch.keys(8));
    std::thread::scope(|scope| {
        for slot in 0..CURATORS {
            let (file, keys) = (&file, &keys);
            scope.spawn(move || {
                for count in 1..=WRITES {
                    let caption = format!("curator {slot}, write {count}");
                    let words = words!["write", file, slot.to_string(), keys];
                    run_with(&words, caption.as_bytes()).done();
                }
            });
        }
    });
    let listing = String::from_utf8(run(&words!["list", file]).stdout).unwrap();
    let last = CURATORS * WRITES;
    assert!(
        listing.starts_with(&format!("slots {CURATORS} key 64 last {last}\n")),
        "{listing}"
    );
    for slot in 0..CURATORS {
        let caption = format!("curator {slot}, write {WRITES}");
        run(&words!["read", file, slot.to_string(), keys]).printed(caption.as_bytes());
    }
    assert_eq!(scratch.names(), ["keys-8", "sheet"]);
}

/// A sheet in a folder whose lock keeps nobody out, and several machines.
struct Machines {
    scratch: Scratch,
    file: PathBuf,
    keys: PathBuf,
}

impl Machines {
    fn new(slots: usize) -> Machines {
        let scratch = Scratch::new();
        fs::create_dir(scratch.join("folder")).unwrap();
        let (file, keys) = (scratch.join("folder/sheet"), scratch.keys(8));
        fs::write(&file, blank_sheet(slots, 4)).unwrap();
        for machine in 0..CURATORS {
            let digits = format!("{:032x}\n", u128::from_be_bytes([machine as u8 + 1; 16]));
            fs::write(scratch.join(format!("system-{machine}")), digits).unwrap();
        }
        Machines {
            scratch,
            file,
            keys,
        }
    }

    /// The command on a machine that sees no other's locks; two of one
    /// number don't see each other's either.
    fn command(&self, machine: usize, words: &[OsString]) -> Command {
        let mut command = command_with(Locks::Disabled);
        let system = self.scratch.join(format!("system-{machine}"));
        command.args(words).env("FAULT_BOOT", system);
        command
    }

    fn run(&self, machine: usize, words: &[OsString], stdin: &[u8]) -> Run {
        run_command(self.command(machine, words), stdin)
    }

    /// A sheet that any of the curators may have left: whole, every caption in
    /// its slot as its curator wrote it.
    #[track_caller]
    fn is_whole(&self, sheet: &[u8]) {
        let mut window = [0; 192];
        for slot in 0..CURATORS {
            let (sealing, checking) = (&SEALING[..8], &CHECKING[..8]);
            let read = reference::read(sealing, checking, sheet, slot, &mut window);
            let caption = String::from_utf8_lossy(&window[..read.length as usize]);
            let begins = format!("curator {slot}, write ");
            let sound = read.number == 0 && caption.starts_with(&begins);
            assert!(sound || read.number == 9, "torn: {}", read.number);
        }
    }

    /// Starts a write and kills it at some moment, by the clock.
    fn kill(&self, machine: usize, words: &[OsString], stdin: &[u8], random: &mut Random) {
        let mut child = self
            .command(machine, words)
            .stdin(Stdio::piped())
            .stdout(Stdio::null())
            .stderr(Stdio::null())
            .spawn()
            .unwrap();
        let _ = child.stdin.take().unwrap().write_all(stdin);
        std::thread::sleep(Duration::from_micros(random.below(4000)));
        child.kill().unwrap();
        child.wait().unwrap();
    }

    /// Every curator writes to a slot of their own, if asked killed every other
    /// time, and a kiosk looks on. Counts the sheets seen and the writes that
    /// failed.
    fn write_at_once(&self, machine_of: fn(usize) -> usize, kills: bool) -> (usize, usize) {
        let at_work = AtomicUsize::new(CURATORS);
        let (mut seen, failed) = (0, AtomicUsize::new(0));
        std::thread::scope(|scope| {
            for slot in 0..CURATORS {
                let (at_work, failed) = (&at_work, &failed);
                scope.spawn(move || {
                    let mut random = Random(slot as u64);
                    for count in 1..=WRITES {
                        let caption = format!("curator {slot}, write {count}");
                        let words = words!["write", self.file, slot.to_string(), self.keys];
                        let machine = machine_of(slot);
                        if kills {
                            self.kill(machine, &words, caption.as_bytes(), &mut random);
                        }
                        let run = self.run(machine, &words, caption.as_bytes());
                        assert!(run.status == 0 || run.status == 73, "{}", run.stderr);
                        failed.fetch_add(usize::from(run.status != 0), Ordering::Relaxed);
                    }
                    at_work.fetch_sub(1, Ordering::Relaxed);
                });
            }
            while at_work.load(Ordering::Relaxed) > 0 {
                self.is_whole(&fs::read(&self.file).unwrap());
                seen += 1;
            }
        });
        self.is_whole(&fs::read(&self.file).unwrap());
        assert_eq!(names_in(&self.scratch.join("folder")), ["sheet"]);
        (seen, failed.into_inner())
    }
}

/// Where the lock isn't shared, an update can be lost, but no write fails and
/// the sheet is whole at every moment.
#[test]
fn no_sheet_is_torn_without_a_shared_lock() {
    let machines = Machines::new(256);
    let (seen, failed) = machines.write_at_once(|slot| slot, false);
    println!("{seen} sheets seen during {} writes", CURATORS * WRITES);
    assert_eq!(failed, 0);
}

/// Nor by kills: what is left behind is removed by its own machine's next write
/// and in no other's way.
#[test]
fn no_sheet_is_torn_by_kills_without_a_shared_lock() {
    let machines = Machines::new(256);
    let (seen, failed) = machines.write_at_once(|slot| slot, true);
    let writes = CURATORS * WRITES;
    println!("{seen} sheets seen during {writes} writes and as many kills");
    assert_eq!(failed, 0);
}

/// Not even the locks on temporary files are kept, so that each command takes
/// the others' for leftovers: a write may fail then, and says so.
#[test]
fn no_sheet_is_torn_without_any_lock() {
    let machines = Machines::new(256);
    let (seen, failed) = machines.write_at_once(|_| 0, false);
    let writes = CURATORS * WRITES;
    println!("{seen} sheets seen during {writes} writes, of which {failed} failed");
    assert!(failed < writes);
}

/// Without a shared lock, too, one new file is made by one command: the others
/// find it there and leave it alone.
#[test]
fn one_of_several_blanks_makes_the_file_without_a_lock() {
    let machines = Machines::new(1);
    for round in 0..10 {
        let file = machines.scratch.join(format!("folder/new-{round}"));
        let done: Vec<(usize, i32)> = std::thread::scope(|scope| {
            let runs: Vec<_> = (0..CURATORS)
                .map(|machine| {
                    let slots = (machine + 1).to_string();
                    let words = words!["blank", file, slots, "64", "1", shared_keys(8)];
                    let machines = &machines;
                    scope.spawn(move || (machine, machines.run(machine, &words, b"").status))
                })
                .collect();
            runs.into_iter().map(|run| run.join().unwrap()).collect()
        });
        let makers: Vec<usize> = done
            .iter()
            .filter(|run| run.1 == 0)
            .map(|run| run.0)
            .collect();
        assert_eq!(makers.len(), 1, "{done:?}");
        assert!(done.iter().all(|run| [0, 73].contains(&run.1)));
        assert_eq!(fs::read(&file).unwrap(), blank_sheet(makers[0] + 1, 4));
    }
}

/// A kiosk that reads while a curator writes sees a whole sheet every time.
#[test]
fn a_reader_never_sees_half_a_sheet() {
    let scratch = Scratch::new();
    let (file, keys) = (scratch.join("sheet"), scratch.keys(8));
    fs::write(&file, written(&blank_sheet(200, 4), 8, 199, b"A")).unwrap();
    std::thread::scope(|scope| {
        let writer = scope.spawn(|| {
            for caption in [b"B", b"A"].iter().cycle().take(40) {
                run_with(&words!["write", file, "199", keys], *caption).done();
            }
        });
        let mut reads = 0;
        while !writer.is_finished() {
            let caption = run(&words!["read", file, "199", keys]);
            assert_eq!((caption.status, caption.stderr.as_str()), (0, ""));
            assert!(caption.stdout == b"A" || caption.stdout == b"B");
            reads += 1;
        }
        println!("{reads} reads during 40 writes");
    });
}

/// Several commands make one new file: one does, the others find it there.
#[test]
fn one_of_several_blanks_makes_the_file() {
    let scratch = Scratch::new();
    for round in 0..10 {
        let file = scratch.join(format!("sheet-{round}"));
        let done: Vec<i32> = std::thread::scope(|scope| {
            let runs: Vec<_> = (0..4)
                .map(|_| {
                    scope.spawn(|| {
                        run(&words!["blank", file, "256", "64", "1", shared_keys(8)]).status
                    })
                })
                .collect();
            runs.into_iter().map(|run| run.join().unwrap()).collect()
        });
        assert_eq!(done.iter().filter(|status| **status == 0).count(), 1);
        assert_eq!(done.iter().filter(|status| **status == 73).count(), 3);
        assert_eq!(fs::read(&file).unwrap(), blank_sheet(256, 4));
    }
}
