//! Scratch folders, keys, and running the command.

use crate::edition::Edition;
use std::ffi::{c_int, OsStr};
use std::fs;
use std::io::Write;
use std::os::fd::AsRawFd;
use std::os::unix::fs::{MetadataExt, PermissionsExt};
use std::os::unix::process::{CommandExt, ExitStatusExt};
use std::path::{Path, PathBuf};
use std::process::{Command, Output, Stdio};
use std::sync::atomic::{AtomicUsize, Ordering};
use std::sync::OnceLock;
use std::time::{Duration, Instant};

pub const PROGRAM: &str = env!("CARGO_BIN_EXE_captions");
/// What a temporary file's name begins with, as the help text gives it.
pub const TEMPORARY: &str = ".captions-new-";

pub const SEALING: [u8; 16] = *b"\x0d\x2a\x47\x64\x81\x9e\xbb\xd8\xf5\x12\x2f\x4c\x69\x86\xa3\xc0";
pub const CHECKING: [u8; 16] = *b"\x10\x0f\x0e\x0d\x0c\x0b\x0a\x09\x08\x07\x06\x05\x04\x03\x02\x01";

/// A folder of a test's own, removed at its end.
pub struct Scratch(PathBuf);

impl Scratch {
    pub fn new() -> Scratch {
        static COUNT: AtomicUsize = AtomicUsize::new(0);
        let count = COUNT.fetch_add(1, Ordering::Relaxed);
        let name = format!("captions-test-{}-{count}", std::process::id());
        // Not in root's own folder, if that is what is set: nobody enters too.
        let folder = if is_root() {
            PathBuf::from("/tmp")
        } else {
            std::env::temp_dir()
        };
        let path = folder.join(name);
        fs::create_dir(&path).unwrap();
        Scratch(path.canonicalize().unwrap())
    }

    pub fn path(&self) -> &Path {
        &self.0
    }

    pub fn join(&self, name: impl AsRef<Path>) -> PathBuf {
        self.0.join(name)
    }

    /// The names in the folder, in order.
    pub fn names(&self) -> Vec<String> {
        names_in(&self.0)
    }

    /// A file of keys of this many bytes.
    pub fn keys(&self, length: usize) -> PathBuf {
        self.key_file(
            &format!("keys-{length}"),
            &SEALING[..length],
            &CHECKING[..length],
        )
    }

    /// A file of these two keys.
    pub fn key_file(&self, name: &str, sealing: &[u8], checking: &[u8]) -> PathBuf {
        let path = self.join(name);
        fs::write(&path, format!("{}\n{}\n", hex(sealing), hex(checking))).unwrap();
        set_mode(&path, 0o600);
        path
    }

    /// A blank sheet's file, made by the second program.
    pub fn sheet(&self, name: &str, slots: usize, class: usize) -> PathBuf {
        let path = self.join(name);
        fs::write(&path, blank_sheet(slots, class)).unwrap();
        path
    }
}

impl Drop for Scratch {
    fn drop(&mut self) {
        let _ = fs::set_permissions(&self.0, fs::Permissions::from_mode(0o700));
        let _ = fs::remove_dir_all(&self.0);
    }
}

/// The temporary files in a folder.
pub fn temporaries(folder: &Path) -> Vec<String> {
    let mut names = names_in(folder);
    names.retain(|name| name.starts_with(TEMPORARY));
    names
}

pub fn set_mode(path: &Path, mode: u32) {
    fs::set_permissions(path, fs::Permissions::from_mode(mode)).unwrap();
}

pub fn mode(path: &Path) -> u32 {
    fs::metadata(path).unwrap().mode() & 0o7777
}

pub fn names_in(folder: &Path) -> Vec<String> {
    let entries = fs::read_dir(folder).unwrap();
    let mut names: Vec<String> = entries
        .map(|entry| entry.unwrap().file_name().into_string().unwrap())
        .collect();
    names.sort();
    names
}

pub fn hex(bytes: &[u8]) -> String {
    bytes.iter().map(|byte| format!("{byte:02x}")).collect()
}

/// A file of the keys of this many bytes, for tests whose folder is to hold none.
pub fn shared_keys(length: usize) -> PathBuf {
    static MADE: OnceLock<()> = OnceLock::new();
    let folder = Path::new(env!("CARGO_TARGET_TMPDIR"));
    let file = |length: usize| folder.join(format!("keys-{length}"));
    MADE.get_or_init(|| {
        for length in [8, 10, 12, 16] {
            let [sealing, checking] = [SEALING, CHECKING].map(|key| hex(&key[..length]));
            fs::write(file(length), format!("{sealing}\n{checking}\n")).unwrap();
            set_mode(&file(length), 0o600);
        }
    });
    file(length)
}

/// The edition of `blank_sheet`, and of `captions blank` with the serial 1.
pub const EDITION: Edition = Edition::Three(1);

pub fn blank_sheet(slots: usize, class: usize) -> Vec<u8> {
    blank_sheet_with(slots, class, 1)
}

/// A sheet as a blanking by the second program makes it, for the keys of its
/// class.
pub fn blank_sheet_with(slots: usize, class: usize, serial: u16) -> Vec<u8> {
    let mut sheet = vec![0; Edition::BLANKED.sheet_length(slots)];
    let length = reference::class::key_bytes(class).unwrap();
    let [sealing, checking] = [&SEALING, &CHECKING].map(|key| &key[..length]);
    let answer = reference::blank(&mut sheet, slots, class, serial, sealing, checking);
    assert_eq!(answer.number, 0);
    sheet
}

/// A sheet of edition 2, which no program makes any more.
pub fn blank_sheet_2(slots: usize, key_words: usize) -> Vec<u8> {
    Edition::Two(1).blank_sheet(slots, key_words)
}

/// A sheet as a write by the second program leaves it.
pub fn written(sheet: &[u8], key_len: usize, slot: usize, caption: &[u8]) -> Vec<u8> {
    let mut sheet = sheet.to_vec();
    let (sealing, checking) = (&SEALING[..key_len], &CHECKING[..key_len]);
    let answer = reference::write(sealing, checking, &mut sheet, slot, caption);
    assert_eq!(answer.number, 0);
    sheet
}

/// A sheet as a write left it before captions had to be UTF-8: any bytes, stored by
/// the second program.
pub fn stored(sheet: &[u8], key_len: usize, slot: usize, caption: &[u8]) -> Vec<u8> {
    let mut sheet = sheet.to_vec();
    let mut field = [0; 192];
    field[..caption.len()].copy_from_slice(caption);
    let (sealing, checking) = (&SEALING[..key_len], &CHECKING[..key_len]);
    let length = caption.len() as u16;
    let answer = reference::store_field(sealing, checking, &mut sheet, slot, length, &field);
    assert_eq!(answer.number, 0);
    sheet
}

/// A sheet as a clear by the second program leaves it.
pub fn cleared(sheet: &[u8], slot: usize) -> Vec<u8> {
    let mut sheet = sheet.to_vec();
    assert_eq!(reference::clear(&mut sheet, slot).number, 0);
    sheet
}

/// The letters by which an exported text is known again (FNV-1a, 64 bits).
pub fn digest(caption: &[u8]) -> String {
    let mut hash = 14695981039346656037_u64;
    for byte in caption {
        hash = (hash ^ u64::from(*byte)).wrapping_mul(1099511628211);
    }
    let digits = format!("{hash:016x}");
    let letter = |digit: char| char::from(b'a' + digit.to_digit(16).unwrap() as u8);
    digits.chars().map(letter).collect()
}

/// A term sheet by the opening and closing days of its slots.
pub fn term_sheet(terms: &[(u16, u16)]) -> Vec<u8> {
    let openings = terms.iter().map(|term| term.0);
    let closings = terms.iter().map(|term| term.1);
    let numbers = std::iter::once(terms.len() as u16);
    let numbers = numbers.chain(openings).chain(closings);
    numbers.flat_map(u16::to_be_bytes).collect()
}

/// What a run of the command came to.
#[derive(Debug, PartialEq, Eq)]
pub struct Run {
    /// The exit status, or minus the signal that ended it.
    pub status: i32,
    pub stdout: Vec<u8>,
    pub stderr: String,
}

impl Run {
    pub fn of(output: Output) -> Run {
        let killed_by = || output.status.signal().map(|signal| -signal);
        Run {
            status: output.status.code().or_else(killed_by).unwrap(),
            stdout: output.stdout,
            stderr: String::from_utf8(output.stderr).unwrap(),
        }
    }

    /// Done, with this on standard output and nothing on standard error.
    #[track_caller]
    pub fn printed(self, stdout: &[u8]) {
        assert_eq!((self.status, self.stderr.as_str()), (0, ""));
        assert_eq!(self.stdout, stdout);
    }

    /// Done in silence.
    #[track_caller]
    pub fn done(self) {
        self.printed(b"");
    }

    /// Refused: number and word on the last line. Before it stands what is known
    /// of the refusals that have something to know, whatever it is if the words
    /// name none; else nothing.
    #[track_caller]
    pub fn refused(self, number: i32, words: &str) {
        let word = words.split(": ").next().unwrap();
        let last = format!("{number} {word}\n");
        match (number, word == words) {
            (1 | 3 | 4 | 5 | 6 | 7 | 10 | 13 | 15, true) => {
                let rule = self.stderr.strip_suffix(&last);
                let rule = rule.and_then(|rule| rule.strip_prefix("captions: "));
                let rule = rule.and_then(|rule| rule.strip_prefix(word));
                let rule = rule.and_then(|rule| rule.strip_prefix(": "));
                let lines = rule.map(|rule| rule.matches('\n').count());
                assert_eq!(lines, Some(1), "{}", self.stderr);
            }
            (_, true) => assert_eq!(self.stderr, last),
            (_, false) => assert_eq!(self.stderr, format!("captions: {words}\n{last}")),
        }
        assert_eq!((self.status, self.stdout.as_slice()), (number, &b""[..]));
    }

    /// Failed with this exit status and a message that has these words.
    #[track_caller]
    pub fn failed(self, status: i32, words: &str) {
        assert_eq!(self.status, status, "{}", self.stderr);
        assert!(self.stderr.starts_with("captions: "), "{}", self.stderr);
        assert!(self.stderr.contains(words), "{}", self.stderr);
        assert!(self.stdout.is_empty());
    }
}

/// Runs the command with this standard input.
pub fn run_with<W: AsRef<OsStr>>(words: &[W], stdin: &[u8]) -> Run {
    let mut command = Command::new(PROGRAM);
    command.args(words);
    run_command(command, stdin)
}

pub fn run<W: AsRef<OsStr>>(words: &[W]) -> Run {
    run_with(words, b"")
}

/// Words of several types, as the command takes them.
#[macro_export]
macro_rules! words {
    ($($word:expr),* $(,)?) => { [$(std::ffi::OsString::from(&$word)),*] };
}

pub fn run_command(mut command: Command, stdin: &[u8]) -> Run {
    let mut child = command
        .stdin(Stdio::piped())
        .stdout(Stdio::piped())
        .stderr(Stdio::piped())
        .spawn()
        .unwrap();
    // The command may end, or stop reading, before a long input does.
    let _ = child.stdin.take().unwrap().write_all(stdin);
    Run::of(child.wait_with_output().unwrap())
}

/// Runs a shell line in which "$@" is the command.
pub fn shell<W: AsRef<OsStr>>(line: &str, words: &[W], stdin: &[u8]) -> Run {
    let mut command = Command::new("sh");
    command.args(["-c", line, "sh", PROGRAM]).args(words);
    run_command(command, stdin)
}

/// A file or folder that is locked, as the command does it, until this is
/// dropped. It is unlocked and not only closed: a child that another thread is
/// starting has it open too, for a moment.
pub struct Locked(fs::File);

impl Locked {
    pub fn new(path: &Path) -> Locked {
        const LOCK_EX: c_int = 2;
        let file = fs::File::open(path).unwrap();
        assert_eq!(flock_by(&file, LOCK_EX), 0);
        Locked(file)
    }
}

impl Drop for Locked {
    fn drop(&mut self) {
        const LOCK_UN: c_int = 8;
        assert_eq!(flock_by(&self.0, LOCK_UN), 0);
    }
}

fn flock_by(file: &fs::File, operation: c_int) -> c_int {
    extern "C" {
        fn flock(file: c_int, operation: c_int) -> c_int;
    }
    // SAFETY: the descriptor is open, and no memory is touched.
    unsafe { flock(file.as_raw_fd(), operation) }
}

/// The library that is preloaded to bring about faults; `fault.c` says which.
pub fn fault_library() -> &'static Path {
    static LIBRARY: OnceLock<PathBuf> = OnceLock::new();
    LIBRARY.get_or_init(|| {
        let library = Path::new(env!("CARGO_TARGET_TMPDIR")).join("fault.so");
        let source = concat!(env!("CARGO_MANIFEST_DIR"), "/tests/suite/fault.c");
        let mut command = Command::new("cc");
        command.args(["-shared", "-fPIC", "-Wall", "-Wextra", "-Werror", "-o"]);
        let status = command.arg(&library).args([source, "-ldl"]).status();
        assert!(status.unwrap().success());
        library
    })
}

/// Whom a folder's lock keeps out.
#[derive(Clone, Copy, Debug, PartialEq, Eq)]
pub enum Locks {
    /// Everybody, as on one machine.
    Kept,
    /// Nobody, as in a network folder.
    Disabled,
}

pub const BOTH_LOCKS: [Locks; 2] = [Locks::Kept, Locks::Disabled];

/// The command, with locks that are kept or not.
pub fn command_with(locks: Locks) -> Command {
    let mut command = Command::new(PROGRAM);
    command.env("LD_PRELOAD", fault_library());
    if locks == Locks::Disabled {
        command.env("FAULT_LOCK", "disabled");
    }
    command
}

/// Waits until something is so. Where that doesn't come, the test fails.
#[track_caller]
pub fn until(what: &str, mut is_so: impl FnMut() -> bool) {
    let end = Instant::now() + Duration::from_secs(20);
    while !is_so() {
        assert!(Instant::now() < end, "waited in vain: {what}");
        std::thread::sleep(Duration::from_millis(2));
    }
}

/// Whether the tests run as root, whom permission bits don't bind.
pub fn is_root() -> bool {
    fs::metadata("/proc/self").unwrap().uid() == 0
}

/// The command as a user whom permission bits bind: where the tests run as
/// root, as nobody, from a copy that nobody may run. The folder becomes that
/// user's, and what is in it too.
pub fn unprivileged(scratch: &Scratch) -> Command {
    if !is_root() {
        return Command::new(PROGRAM);
    }
    const NOBODY: u32 = 65534;
    let own = |path: &Path| std::os::unix::fs::chown(path, Some(NOBODY), Some(NOBODY)).unwrap();
    let copy = scratch.join("captions");
    if !copy.exists() {
        // By another process: a program that this one has open for writing, if
        // only in a child that another thread is starting, can't be run.
        let status = Command::new("cp").arg(PROGRAM).arg(&copy).status();
        assert!(status.unwrap().success());
    }
    own(scratch.path());
    for name in scratch.names() {
        own(&scratch.join(name));
    }
    let mut command = Command::new(copy);
    command.uid(NOBODY).gid(NOBODY);
    command
}

/// A small seeded generator (splitmix64).
pub struct Random(pub u64);

impl Random {
    pub fn next(&mut self) -> u64 {
        self.0 = self.0.wrapping_add(0x9e3779b97f4a7c15);
        let mut z = self.0;
        z = (z ^ (z >> 30)).wrapping_mul(0xbf58476d1ce4e5b9);
        z = (z ^ (z >> 27)).wrapping_mul(0x94d049bb133111eb);
        z ^ (z >> 31)
    }

    pub fn below(&mut self, bound: u64) -> u64 {
        self.next() % bound
    }
}
