//! Broken text: what a write and an import say of it, and old sheets that hold some.

use crate::edition::Edition;
use crate::refusals::refused;
use crate::support::*;
use crate::words;
use std::ffi::{OsStr, OsString};
use std::fs;
use std::os::unix::ffi::OsStrExt;
use std::os::unix::fs::MetadataExt;

/// Texts that break at each kind of byte, with the words.
const BROKEN: [(&[u8], &str); 12] = [
    (b"Vase, Gen\xc3", "byte 10: a letter is cut off at the end"),
    (b"\xf0\x9d\x84", "byte 3: a letter is cut off at the end"),
    (b"Gen\xc3ve", "byte 4: the letter before it is cut off"),
    (
        b"\xe2\x82\xc2\xa0",
        "byte 2: the letter before it is cut off",
    ),
    (
        b"\xc3\xa8\x80",
        "byte 2: a continuation byte that belongs to no letter",
    ),
    (
        b"\xc0\x80",
        "byte 0: an overlong form, more bytes than the letter needs",
    ),
    (
        b"\xe0\x9f\xbf",
        "byte 1: an overlong form, more bytes than the letter needs",
    ),
    (
        b"a\xf0\x8f\xbf\xbf",
        "byte 2: an overlong form, more bytes than the letter needs",
    ),
    (
        b"\xed\xa0\x80",
        "byte 1: a surrogate, which is half of a letter",
    ),
    (
        b"\xf4\x90\x80\x80",
        "byte 1: above U+10FFFF, the last letter",
    ),
    (b"Vase\xf5", "byte 4: no letter begins with this byte"),
    (b"\xff\xfeV\0", "byte 0: no letter begins with this byte"),
];

/// Beside each of them, at the other side of its edge.
const WELL_FORMED: [&[u8]; 10] = [
    "Vase, Genè".as_bytes(),
    "𝄞".as_bytes(),
    b"\xc2\x80",
    b"\xdf\xbf",
    b"\xe0\xa0\x80",
    b"\xed\x9f\xbf",
    b"\xee\x80\x80",
    b"\xf0\x90\x80\x80",
    b"\xf4\x8f\xbf\xbf",
    b"\xef\xbb\xbf\xef\xbf\xbf\0",
];

// ---- Writes ----

/// From standard input, from a file and as a word of the command line; the file of the
/// sheet is left alone.
#[test]
fn a_broken_text_is_refused_with_its_byte() {
    let scratch = Scratch::new();
    let (file, keys) = (scratch.join("sheet"), scratch.keys(8));
    let name = scratch.join("caption");
    for sheet in [
        blank_sheet(2, 4),
        blank_sheet_2(2, 4),
        Edition::One.blank_sheet(2, 4),
    ] {
        fs::write(&file, written(&sheet, 8, 1, b"Clock")).unwrap();
        let write = words!["write", file, "1", keys].to_vec();
        for (text, words) in BROKEN {
            let words = format!("broken text: {words}");
            refused(&write, text, &file, 15, &words);
            fs::write(&name, text).unwrap();
            let from_file = [&write[..], &words!["--file", name]].concat();
            refused(&from_file, b"", &file, 15, &words);
            if !text.contains(&0) {
                let text = OsString::from(OsStr::from_bytes(text));
                let from_word = [&write[..], &words!["--text", text, "--again"]].concat();
                refused(&from_word, b"", &file, 15, &words);
            }
        }
        run(&words!["read", file, "1", keys]).printed(b"Clock");
        for text in WELL_FORMED {
            run_with(&write, text).done();
            run(&words!["read", file, "1", keys]).printed(text);
        }
    }
}

/// 7 comes first, then 15, then 8.
#[test]
fn where_it_stands_among_the_refusals() {
    let scratch = Scratch::new();
    let (file, keys) = (scratch.join("sheet"), scratch.keys(8));
    let mut worn = blank_sheet(2, 4);
    worn[4..8].fill(255);
    fs::write(&file, worn).unwrap();
    let write = |slot: &str| words!["write", file, slot, keys];
    refused(&write("2"), &[0xff; 193], &file, 6, "no such slot");
    let words = "overlong: 193 bytes, where a caption has at most 192: 1 too many";
    refused(&write("1"), &[0xff; 193], &file, 7, words);
    let words = "broken text: byte 0: no letter begins with this byte";
    refused(&write("1"), &[0xff; 192], &file, 15, words);
    refused(&write("1"), &[b'x'; 192], &file, 8, "worn");
}

/// As a shell cuts it: 192 bytes end inside the last letter.
#[test]
fn a_text_that_is_cut_at_192_bytes() {
    let scratch = Scratch::new();
    let (file, keys) = (scratch.sheet("sheet", 1, 4), scratch.keys(8));
    let write = words!["write", file, "0", keys];
    let text = "é".repeat(96);
    let longer = ["x", &text].concat();
    let words = "overlong: 193 bytes, where a caption has at most 192: 1 too many";
    refused(&write, longer.as_bytes(), &file, 7, words);
    let words = "broken text: byte 192: a letter is cut off at the end";
    refused(&write, &longer.as_bytes()[..192], &file, 15, words);
    let cut = "head -c 192 | \"$@\"";
    shell(cut, &write, longer.as_bytes()).refused(15, words);
    shell("head -c 191 | \"$@\"", &write, longer.as_bytes()).done();
    run(&words!["read", file, "0", keys]).printed(&longer.as_bytes()[..191]);
    shell(cut, &write, text.as_bytes()).done();
    run(&words!["read", file, "0", keys]).printed(text.as_bytes());
}

// ---- Tables ----

/// Every line is named, with its byte. The status is 15 where the library alone
/// refuses, and 65 where a line is wrong for another reason.
#[test]
fn an_import_names_the_lines() {
    let scratch = Scratch::new();
    let (file, keys) = (scratch.sheet("sheet", 4, 4), scratch.keys(8));
    let table = scratch.join("table");
    let import = words!["import", file, keys, "--file", table].to_vec();
    let said = |lines: &str| {
        let name = table.display();
        let notice = "no write numbers, so that nothing tells what was written since";
        let lines = lines.replace("line", &format!("captions: {name}: line"));
        format!("captions: {name}: {notice}\n{lines}")
    };
    let refuses = |text: &str, status: i32, lines: &str| {
        fs::write(&table, text).unwrap();
        let before = (fs::read(&file).unwrap(), fs::metadata(&file).unwrap().ino());
        for words in [&import[..], &[&import[..], &words!["--dry-run"]].concat()] {
            let run = run(words);
            assert_eq!((run.status, run.stdout.as_slice()), (status, &b""[..]));
            assert_eq!(run.stderr, said(lines));
        }
        let after = (fs::read(&file).unwrap(), fs::metadata(&file).unwrap().ino());
        assert_eq!(after, before);
    };
    refuses(
        "slot\ttext\n0\tVase\n1\tGen\\xc3\n3\t\\xed\\xa0\\x80\n2\tGen\\xe8ve\n",
        15,
        "line 3: slot 1: broken text: byte 4: a letter is cut off at the end\n\
         line 4: slot 3: broken text: byte 1: a surrogate, which is half of a letter\n\
         line 5: slot 2: broken text: byte 4: the letter before it is cut off\n\
         15 broken text\n",
    );
    // The number is that of the first slot that is refused.
    let overlong = "x".repeat(193);
    refuses(
        &format!("slot\ttext\n1\t{overlong}\n0\t\\xff\n"),
        15,
        "line 2: slot 1: overlong: 193 bytes, where a caption has at most 192: 1 too many\n\
         line 3: slot 0: broken text: byte 0: no letter begins with this byte\n\
         15 broken text\n",
    );
    refuses(
        "slot\ttext\n0\t\\xff\n1\t\\q\n",
        65,
        "line 2: slot 0: broken text: byte 0: no letter begins with this byte\n\
         line 3: a backslash that begins none of \\t \\n \\r \\\\ \\& \\x00; \\\\ is a backslash\n",
    );
    // Escapes that make a letter.
    fs::write(&table, "slot\ttext\n1\tGen\\xc3\\xa8ve\n").unwrap();
    assert_eq!(run(&import).status, 0);
    run(&words!["read", file, "1", keys]).printed("Genève".as_bytes());
}

// ---- Old sheets ----

/// Captions of any bytes, as they could be written before, on a sheet of each edition.
#[test]
fn old_captions_are_read_verified_and_exported() {
    let scratch = Scratch::new();
    let (file, keys) = (scratch.join("sheet"), scratch.keys(8));
    let read = words!["read", file, "1", keys];
    for blank in [
        blank_sheet(2, 4),
        blank_sheet_2(2, 4),
        Edition::One.blank_sheet(2, 4),
    ] {
        for text in BROKEN.map(|(text, _)| text) {
            let sheet = stored(&blank, 8, 1, text);
            fs::write(&file, &sheet).unwrap();
            run(&read).printed(text);
            let length = text.len();
            let lines = format!("0 blank\n1 sound {length}\nslots 2 sound 1 blank 1 altered 0\n");
            run(&words!["verify", file, keys]).printed(lines.as_bytes());
            let lines = format!("slots 2 key 64 last 1\n0 blank\n1 written 1 {length}\n");
            run(&words!["list", file]).printed(lines.as_bytes());

            // It is there already, so it isn't written; written again it is refused.
            let write = words!["write", file, "1", keys].to_vec();
            let unchanged = run_with(&write, text);
            assert_eq!(unchanged.status, 0);
            assert!(unchanged.stderr.starts_with("captions: unchanged: slot 1"));
            let again = [&write[..], &words!["--again"]].concat();
            refused(&again, text, &file, 15, "broken text");
            assert_eq!(fs::read(&file).unwrap(), sheet);

            // The other slot is written, and this one stays.
            run(&words!["write", file, "0", keys, "--text", "Vase"]).done();
            run(&read).printed(text);
            run(&words!["clear", file, "1"]).done();
            run(&read).refused(9, "blank");
        }
    }
}

/// Any bytes, of the kinds that old captions have.
fn any_bytes(random: &mut Random) -> Vec<u8> {
    let length = random.below(193) as usize;
    match random.below(3) {
        0 => (0..length).map(|_| random.next() as u8).collect(),
        // As Latin-1 has it, and as a program leaves it that cuts at bytes.
        1 => b"Gen\xe8ve, Mus\xe9e"
            .iter()
            .copied()
            .cycle()
            .take(length)
            .collect(),
        _ => "Genève, Musée €𝄞".bytes().cycle().take(length).collect(),
    }
}

/// The table of an old sheet has escapes; imported as it is, it changes nothing.
#[test]
fn an_old_sheet_as_a_table() {
    let scratch = Scratch::new();
    let (file, keys) = (scratch.join("sheet"), scratch.keys(8));
    fs::write(&file, stored(&blank_sheet(1, 4), 8, 0, b"a\xffb\xc3")).unwrap();
    let line = format!("0\ta\\xffb\\xc3\t1\t1\t{}\n", digest(b"a\xffb\xc3"));
    let table = format!("slot\ttext\twrite\tserial\tdigest\n{line}");
    run(&words!["export", file, keys]).printed(table.as_bytes());

    let mut random = Random(1788);
    let (mut sheet, mut broken) = (blank_sheet(256, 4), Vec::new());
    for slot in 0..256 {
        let caption = any_bytes(&mut random);
        sheet = stored(&sheet, 8, slot, &caption);
        if std::str::from_utf8(&caption).is_err() {
            broken.push(slot);
        }
    }
    assert!(broken.len() > 100 && broken.len() < 250, "{broken:?}");
    fs::write(&file, &sheet).unwrap();
    let inode = fs::metadata(&file).unwrap().ino();
    let table = run(&words!["export", file, keys]);
    assert_eq!((table.status, table.stderr.as_str()), (0, ""));
    let import = words!["import", file, keys];
    run_with(&words!["import", file, keys, "--dry-run"], &table.stdout)
        .printed(b"writes 0 clears 0 unchanged 256\n");
    run_with(&import, &table.stdout).done();
    assert_eq!(fs::metadata(&file).unwrap().ino(), inode);
    assert_eq!(fs::read(&file).unwrap(), sheet);

    // A mended line is written, and the others stay.
    let text = String::from_utf8(table.stdout.clone()).unwrap();
    let mended: Vec<String> = text
        .lines()
        .enumerate()
        .map(|(place, line)| match place == 1 + broken[0] {
            true => {
                let mut cells: Vec<&str> = line.split('\t').collect();
                cells[1] = "Mended.";
                cells.join("\t")
            }
            false => line.to_string(),
        })
        .collect();
    run_with(&import, mended.join("\n").as_bytes()).done();
    let sheet = written(&sheet, 8, broken[0], b"Mended.");
    assert_eq!(fs::read(&file).unwrap(), sheet);

    // On another sheet every broken line is named, and nothing is imported.
    let other = scratch.sheet("other", 256, 4);
    let refusal = run_with(&words!["import", other, keys], &table.stdout);
    assert_eq!(refusal.status, 15);
    let lines: Vec<&str> = refusal.stderr.lines().collect();
    assert_eq!(lines.last(), Some(&"15 broken text"));
    assert_eq!(lines.len(), broken.len() + 1);
    for (line, slot) in lines.iter().zip(&broken) {
        let words = format!(
            "captions: standard input: line {}: slot {slot}: broken text: byte ",
            slot + 2
        );
        assert!(line.starts_with(&words), "{line}");
    }
    assert_eq!(fs::read(&other).unwrap(), blank_sheet(256, 4));
    println!("{} broken captions of 256 in a table", broken.len());
}
