//! Kills at any moment, by the clock, and a limit on the size of files. Kills
//! at each step in turn are in `faults`.

use crate::support::*;
use crate::words;
use std::fs;
use std::process::Stdio;
use std::time::Duration;

const ROUNDS: usize = 150;
const SIGXFSZ: i32 = 25;

#[test]
fn a_kill_at_any_moment_leaves_the_old_sheet_or_the_new_one() {
    for locks in BOTH_LOCKS {
        kills_at_any_moment(locks);
    }
}

/// A largest sheet, so that there is something to tear.
fn kills_at_any_moment(locks: Locks) {
    let scratch = Scratch::new();
    let (file, keys) = (scratch.join("sheet"), scratch.keys(8));
    let caption_file = scratch.join("caption");
    let mut random = Random(2006);
    let mut sheet = blank_sheet(256, 4);
    fs::write(&file, &sheet).unwrap();
    let (mut old, mut new) = (0, 0);
    for round in 0..ROUNDS {
        let (slot, caption) = (round % 256, format!("caption {round}"));
        fs::write(&caption_file, &caption).unwrap();
        let mut child = command_with(locks)
            .args(words!["write", file, slot.to_string(), keys])
            .stdin(fs::File::open(&caption_file).unwrap())
            .stdout(Stdio::null())
            .stderr(Stdio::null())
            .spawn()
            .unwrap();
        std::thread::sleep(Duration::from_micros(random.below(4000)));
        child.kill().unwrap();
        child.wait().unwrap();
        let after = fs::read(&file).unwrap();
        if after == sheet {
            old += 1;
        } else {
            sheet = written(&sheet, 8, slot, caption.as_bytes());
            assert!(
                after == sheet,
                "round {round}: neither the old sheet nor the new one"
            );
            new += 1;
        }
    }
    println!("{ROUNDS} kills, locks {locks:?}: {old} left the old sheet, {new} the new one");
    // Whatever was left behind, the next change works and clears it away.
    run(&words!["clear", file, "0"]).done();
    assert_eq!(fs::read(&file).unwrap(), cleared(&sheet, 0));
    assert_eq!(scratch.names(), ["caption", "keys-8", "sheet"]);
}

/// The system itself kills the command in the midst of writing the new sheet,
/// or lets the write fail: no room for more than a part of it.
#[test]
fn a_limit_on_the_size_of_files() {
    let scratch = Scratch::new();
    let (file, keys) = (scratch.join("sheet"), scratch.keys(8));
    let sheet = written(&blank_sheet(256, 4), 8, 0, b"Clock");
    for blocks in ["0", "1", "20"] {
        for change in [
            words!["write", file, "0", keys].to_vec(),
            words!["clear", file, "0"].to_vec(),
            words!["blank", file, "200", "96", "1", shared_keys(12), "--force"].to_vec(),
        ] {
            fs::write(&file, &sheet).unwrap();
            let line = format!("ulimit -c 0; ulimit -f {blocks}; exec \"$@\"");
            assert_eq!(shell(&line, &change, b"Vase").status, -SIGXFSZ);
            assert!(fs::read(&file).unwrap() == sheet);

            let line = format!("ulimit -f {blocks}; trap '' XFSZ; exec \"$@\"");
            shell(&line, &change, b"Vase").failed(74, "File too large");
            assert!(fs::read(&file).unwrap() == sheet);
            assert_eq!(scratch.names(), ["keys-8", "sheet"]);
        }
        let new = words!["blank", scratch.join("new"), "256", "64", "1", keys];
        let line = format!("ulimit -f {blocks}; trap '' XFSZ; exec \"$@\"");
        shell(&line, &new, b"").failed(74, "File too large");
        assert_eq!(scratch.names(), ["keys-8", "sheet"]);
    }
}
