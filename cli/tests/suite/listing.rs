//! The listing and the verification as JSON.

use crate::edition::Edition;
use crate::support::*;
use crate::words;
use std::fs;

/// Done, with this on standard output, the key mark being the sheet's.
#[track_caller]
fn printed_with_mark(run: Run, sheet: &[u8], json: &str) {
    run.printed(json.replace("MARK", &hex(&sheet[10..16])).as_bytes());
}

#[test]
fn a_listing_as_json() {
    let scratch = Scratch::new();
    let file = scratch.join("sheet");
    let sheet = written(&blank_sheet(3, 8), 16, 1, b"Clock");
    fs::write(&file, written(&sheet, 16, 2, b"")).unwrap();
    printed_with_mark(
        run(&words!["list", file, "--json"]),
        &sheet,
        r#"{"fit":true,"slots":3,"key":128,"last":2,"edition":3,"serial":1,"key_mark":"MARK","cipher":"mCrypton","reason":null,"list":[
{"slot":0,"state":"blank","write":null,"length":null},
{"slot":1,"state":"written","write":1,"length":5},
{"slot":2,"state":"written","write":2,"length":0}
]}
"#,
    );
    // A sheet of edition 1 has no serial and no key mark.
    fs::write(&file, Edition::One.blank_sheet(1, 4)).unwrap();
    run(&words!["list", file, "--json"]).printed(
        br#"{"fit":true,"slots":1,"key":64,"last":0,"edition":1,"serial":null,"key_mark":null,"cipher":"mCrypton","reason":null,"list":[
{"slot":0,"state":"blank","write":null,"length":null}
]}
"#,
    );
}

#[test]
fn a_verification_as_json() {
    let scratch = Scratch::new();
    let (file, keys) = (scratch.join("sheet"), scratch.keys(8));
    let sheet = written(&blank_sheet(3, 4), 8, 1, b"Clock");
    let mut sheet = written(&sheet, 8, 2, b"Vase");
    fs::write(&file, &sheet).unwrap();
    printed_with_mark(
        run(&words!["verify", file, keys, "--json"]),
        &sheet,
        r#"{"fit":true,"slots":3,"key":64,"last":2,"edition":3,"serial":1,"key_mark":"MARK","cipher":"mCrypton","sound":2,"blank":1,"altered":0,"refusal":null,"word":null,"reason":null,"list":[
{"slot":0,"state":"blank","write":null,"length":null,"reason":null},
{"slot":1,"state":"sound","write":1,"length":5,"reason":null},
{"slot":2,"state":"sound","write":2,"length":4,"reason":null}
]}
"#,
    );
    sheet[EDITION.field_place(3, 1)][0] ^= 1;
    fs::write(&file, &sheet).unwrap();
    let run = run(&words!["verify", file, keys, "--json"]);
    assert_eq!((run.status, run.stderr.as_str()), (10, "10 altered\n"));
    assert_eq!(
        String::from_utf8(run.stdout).unwrap(),
        r#"{"fit":true,"slots":3,"key":64,"last":2,"edition":3,"serial":1,"key_mark":"MARK","cipher":"mCrypton","sound":1,"blank":1,"altered":1,"refusal":null,"word":null,"reason":null,"list":[
{"slot":0,"state":"blank","write":null,"length":null,"reason":null},
{"slot":1,"state":"altered","write":null,"length":null,"reason":"the check differs"},
{"slot":2,"state":"sound","write":2,"length":4,"reason":null}
]}
"#
        .replace("MARK", &hex(&sheet[10..16]))
    );
}

/// Every field of the text is in the JSON, for sheets of every size and class.
#[test]
fn json_says_what_the_text_says() {
    let scratch = Scratch::new();
    let file = scratch.join("sheet");
    let mut random = Random(64);
    for (slots, class, key_len) in [
        (1, 4, 8),
        (2, 6, 12),
        (17, 8, 16),
        (255, 21, 10),
        (256, 24, 16),
    ] {
        let mut sheet = blank_sheet(slots, class);
        for _ in 0..slots / 2 {
            let slot = random.below(slots as u64) as usize;
            let length = random.below(193) as usize;
            sheet = written(&sheet, key_len, slot, &vec![b'x'; length]);
        }
        fs::write(&file, &sheet).unwrap();
        let json = String::from_utf8(run(&words!["list", file, "--json"]).stdout).unwrap();
        let keys = scratch.keys(key_len);
        let verified = run(&words!["verify", file, keys, "--json"]);
        let verified = String::from_utf8(verified.stdout).unwrap();
        let plain = |line: &str| {
            let line = line.replace("\"slot\":", "").replace("\"state\":", "");
            let line = line.replace("\"write\":", "").replace("\"length\":", "");
            let line = line.replace(",\"reason\":null", "");
            let words = line.trim_end_matches(',').trim_matches(['{', '}']);
            let words = words.replace(",null,null", "");
            words.replace('"', "").replace(',', " ")
        };
        let listing = reference::listing(&sheet);
        let listing = String::from_utf8(listing).unwrap();
        let lines: Vec<&str> = listing.lines().collect();
        let marks: Vec<String> = json.lines().map(plain).collect();
        assert_eq!(marks[1..marks.len() - 1], lines[1..]);
        let marks: Vec<String> = verified.lines().map(plain).collect();
        let sound: Vec<String> = lines[1..]
            .iter()
            .map(|line| line.replace("written", "sound"))
            .collect();
        assert_eq!(marks[1..marks.len() - 1], sound);
    }
}
