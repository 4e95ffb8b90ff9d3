//! The help texts, which are the manual too: the man page and the completions
//! are made from what `captions help` and `captions help COMMAND` print, and
//! the command line is read by the same table of options.
//!
//! Every text has one form: the usage, an empty line, paragraphs, and sections.
//! A section begins with a line that ends in a colon; its items are indented by
//! two blanks, term and text two blanks or more apart, and go on in lines that
//! are indented further. A line of a paragraph's own, indented by four blanks,
//! is an example.

/// One command, as it is typed and as it is explained.
pub struct Page {
    pub name: &'static str,
    /// The words that it takes, in their order.
    pub operands: &'static [&'static str],
    /// The options with the word that each takes, if any, and what each does.
    pub options: &'static [(&'static str, &'static str)],
    /// An option that stands in place of the last operands, and how many stay.
    pub instead: Option<(&'static str, usize)>,
    /// How operands and options are put together, after the command's name.
    pub usage: &'static str,
    /// What it does, in a few words.
    pub summary: &'static str,
    /// What it does, in paragraphs.
    pub about: &'static str,
    /// The exit statuses that it has beside those of every command.
    pub statuses: &'static [u8],
}

const WAIT: (&str, &str) = (
    "--wait SECONDS",
    "wait so long for the folder's lock; 30 if not given",
);

pub const PAGES: [Page; 17] = [
    Page {
        name: "blank",
        operands: &["FILE", "SLOTS", "CIPHER", "SERIAL", "KEYS"],
        options: &[
            ("--force", "blank a FILE that exists, if it is a sheet"),
            ("--force-serial", "take the serial that the sheet there has"),
            WAIT,
        ],
        instead: None,
        usage: "FILE SLOTS CIPHER SERIAL KEYS\n[--force] [--force-serial] [--wait SECONDS]",
        summary: "make a sheet of blank slots",
        about: "\
Makes FILE a sheet of SLOTS blank slots, 1 to 256, for the pair in KEYS, and for
tags with CIPHER: 64, 96 or 128 is mCrypton with keys of so many bits, and
present-80 or present-128 is PRESENT. mcrypton-64, mcrypton-96 and mcrypton-128
are taken too. Keys of 128 bits fit either cipher: the tag's maker says which
its chips have.

One pair of keys serves a sheet, the pair that it was blanked with. The sheet
keeps a mark of that pair, six bytes: with keys of another mark nothing is read
or written (exit status 14). Other keys can have the same mark by chance. The
mark doesn't say which pair it was: note that elsewhere.

Write numbers begin at 1 on every new sheet. SERIAL, 0 to 65535, keeps sheets
apart that the same keys serve: captions of sheets with unlike serials are never
sealed from the same start. With the same serial the same write number and slot
seal from the same start, which shows where an old and a new caption begin
alike. So count up from 1: a serial for each sheet, a new one each time a sheet
is blanked for the next venue, and new keys when all are used. The command can't
know which you have used, so it never chooses one. With serial 0 a sheet seals
as sheets without a serial do: keys that served one of those have used 0.

A FILE that exists is left alone (exit status 73) unless --force is given: all
its captions would be lost. Even then it is replaced only if it is empty or a
sheet, torn or not, by its first bytes. With the cipher, the serial and the keys
of the sheet there it isn't replaced either, unless --force-serial is given too.
",
        statuses: &[1, 2, 3, 5, 65, 66, 73, 75, 79],
    },
    Page {
        name: "write",
        operands: &["FILE", "SLOT", "KEYS"],
        options: &[
            ("--text TEXT", "the caption is TEXT"),
            ("--file NAME", "the caption is what the file NAME holds"),
            ("--empty", "the caption has no bytes"),
            ("--again", "write a caption that the slot holds already"),
            WAIT,
        ],
        instead: None,
        usage: "FILE SLOT KEYS\n[--text TEXT | --file NAME | --empty] [--again] [--wait SECONDS]",
        summary: "write a caption",
        about: "\
Writes a caption into a slot of the sheet, in place of what the slot held. The
caption is read from standard input unless an option gives it.

Every byte counts, a line feed at the end too: printf '%s' 'Vase' gives a
caption without one, and so does --text. At a terminal a caption is typed, and
Ctrl-D pressed twice ends it; Enter before that is a line feed, which is kept.

A caption has at most 192 bytes (exit status 7) and is UTF-8 text of whole
letters (exit status 15). A letter has one to four bytes. To see how many bytes
a text has:

    printf '%s' \"$text\" | wc -c

A text that is cut at 192 bytes, as by head -c 192, can lose a part of its last
letter. It is then refused, with the byte, from 0, at which it breaks, and why:
shorten it by whole letters. Text in another character set breaks too; iconv -f
LATIN1 -t UTF-8 makes UTF-8 of Latin-1.

A caption of no bytes is written only where --empty is given. Input that is
empty is taken for input that was lost, and nothing is written (exit status
66): from a command before the pipe that failed, say, or an unset variable.

A caption that the slot holds already isn't written, since each write uses up a
write number and wears the tag: a line on standard error begins with
\"unchanged\", and the exit status is 0. --again writes it all the same.

One pair of keys serves a sheet: with other keys than those that it was blanked
with nothing is written (exit status 14). A sheet of edition 1 or 2, which has
no mark of its keys, takes any keys of the right length.
",
        statuses: &[1, 2, 4, 5, 6, 7, 8, 14, 15, 65, 66, 73, 75, 79],
    },
    Page {
        name: "read",
        operands: &["FILE", "SLOT", "KEYS"],
        options: &[
            ("--terms TERMS", "the term sheet to heed, with --on"),
            ("--on DATE", "the day to read on, with --terms"),
        ],
        instead: None,
        usage: "FILE SLOT KEYS [--terms TERMS --on DATE]",
        summary: "print a caption",
        about: "\
Prints the caption of a slot: its bytes as they were written, with no line feed
added, unless standard output is a terminal. They aren't tested: what captions
before 0.7.0 wrote that isn't UTF-8 is printed too. A refusal prints nothing on
standard output.

One pair of keys serves a sheet: with other keys than those that it was blanked
with nothing is opened (exit status 14). A sheet of edition 1 or 2 has no mark
of its keys: there other keys show as an altered slot, if at all (exit status
10).

With --terms and --on, which go together, the caption is printed only if the
slot is on show on DATE by the term sheet TERMS, which has as many slots as
FILE: from the slot's opening to its closing day, both included. On any other
day it is refused (exit status 12). Without them no term is looked at.
",
        statuses: &[1, 2, 4, 5, 6, 9, 10, 11, 12, 14, 65, 66],
    },
    Page {
        name: "clear",
        operands: &["FILE", "SLOT"],
        options: &[WAIT],
        instead: None,
        usage: "FILE SLOT [--wait SECONDS]",
        summary: "make a slot blank",
        about: "\
Makes a slot blank, without keys. A blank slot stays blank.
",
        statuses: &[4, 6, 66, 73, 75, 79],
    },
    Page {
        name: "list",
        operands: &["FILE"],
        options: &[("--json", "print one JSON object")],
        instead: None,
        usage: "FILE [--json]",
        summary: "print what each slot holds",
        about: "\
Prints slot count, key bits and last write number, then a line for each slot:
its number and \"blank\", or \"written\", write number and length. It needs no
keys and tests no seal: captions verify does. A file that isn't a sheet is
listed as \"unfit\", which is an answer: the exit status is 0. Why it is unfit is
said on standard error.

With --json it prints an object with the members fit (true or false), slots,
key, last, edition, serial, key_mark, cipher (\"mCrypton\" or \"PRESENT\"), reason
and list; reason is why a sheet is unfit. list has an object for each slot, with
the members slot, state (\"blank\" or \"written\"), write and length. What a blank
slot, an unfit sheet or a sheet of an older edition doesn't have is null:
edition 1 has no serial, and neither 1 nor 2 a key mark.
",
        statuses: &[66],
    },
    Page {
        name: "map",
        operands: &["FILE"],
        options: &[
            ("--terms TERMS", "the term sheet to heed, with --on"),
            ("--on DATE", "the day to look at, with --terms"),
            ("--json", "print what captions list --json prints"),
        ],
        instead: None,
        usage: "FILE [--terms TERMS --on DATE] [--json]",
        summary: "print a sign for each slot",
        about: "\
Prints the sheet at a glance: a line for every 16 slots, with the number of the
first and a sign for each, then what the signs mean and how many there are:

    .  blank
    o  written

It needs no keys. With --terms and --on, which go together, a written slot is
shown by whether it is on show on DATE, by the term sheet TERMS:

    +  written, on show
    -  written, not on show

A file that isn't a sheet is printed as \"unfit\", as by captions list.
",
        statuses: &[4, 11, 66],
    },
    Page {
        name: "verify",
        operands: &["FILE", "KEYS"],
        options: &[("--json", "print one JSON object")],
        instead: None,
        usage: "FILE KEYS [--json]",
        summary: "try every slot",
        about: "\
Reads every slot and prints a line for each: its number and \"sound\" with the
caption's length, \"blank\", or \"altered\" with what differs, the check or else a
byte behind the caption. The last line counts them:

    1 altered: the check differs
    slots 3 sound 1 blank 1 altered 1

The exit status is 0 if no slot is altered, else 10. Keys or a sheet that can't
be used at all are refused as by captions read, with no lines: so are other keys
than those that the sheet was blanked with (exit status 14). An old sheet that
was put back in the place of a newer one verifies as sound: compare the last
write number with one that you noted elsewhere.

With --json it prints an object with the members fit, slots, key, last, edition,
serial, key_mark and cipher, as captions list has them, and sound, blank,
altered, refusal, word, reason and list. Where the keys or the sheet are
refused, it has the refusal's number, its word and the reason, and an empty
list; else those are null. list has an object for each slot, with the members
slot, state (\"sound\", \"blank\" or \"altered\"), write, length and reason. Write
number and length of a slot that isn't sound are null; reason is what differs in
an altered slot.
",
        statuses: &[1, 2, 4, 5, 10, 14, 65, 66],
    },
    Page {
        name: "export",
        operands: &["FILE", "KEYS"],
        options: &[],
        instead: None,
        usage: "FILE KEYS",
        summary: "print all captions as a table",
        about: "\
Prints the sheet as a table for a spreadsheet: lines of UTF-8 with a tab between
the columns slot, text, write, serial and digest. The first line names them.
Each slot has a line; a blank slot's text is empty.

Change the texts alone. The last three columns say what a line was taken from:
the slot's write number, 0 for a blank slot, the sheet's serial, and letters by
which the text is known again. By them an import finds what somebody else has
written since, and which texts you changed.

An altered slot has no line, so that an import of the table leaves it alone. It
is named on standard error, and the exit status is then 10.

In a text, \\t is a tab, \\n a line feed, \\r a carriage return, \\\\ a backslash,
and \\x with two hex digits a byte, for control characters and what isn't UTF-8
in captions from before 0.7.0. \\& is nothing: it stands first where a
spreadsheet could take the text for a number, a date, a formula or a quotation,
and alone for a caption of no bytes.
",
        statuses: &[1, 2, 4, 5, 10, 14, 65, 66],
    },
    Page {
        name: "import",
        operands: &["FILE", "KEYS"],
        options: &[
            ("--dry-run", "print what would change, and change nothing"),
            ("--clear", "make a slot blank where its text is empty"),
            (
                "--force",
                "write what the table changes, whoever wrote there since",
            ),
            ("--file NAME", "the table is in the file NAME"),
            WAIT,
        ],
        instead: None,
        usage: "FILE KEYS\n[--dry-run] [--clear] [--force] [--file NAME] [--wait SECONDS]",
        summary: "write the captions of a table",
        about: "\
Writes the captions of a table as captions export prints it, read from standard
input: all of them in one replacement of FILE, or none. A caption that the sheet
has already isn't written again, and where nothing changes FILE isn't replaced.
Lines may stand in any order; writes are done in the order of the slots.

A slot without a line stays as it is. A line with an empty text is for a blank
slot; where the slot is written, the table is refused (exit status 65) unless
--clear is given. A caption of no bytes is the text \\&. A slot that is altered
isn't overwritten (exit status 10): clear it first.

A slot that was written or cleared since the table was exported stays as it is
if its text in the table is still the exported one; a line on standard error
says so. Where the text was changed too, or the line is of a sheet with another
serial, nothing is imported (exit status 65): somebody's work would be lost.
Export again and bring your changes over, or take those lines out; --force
writes them all the same. A sheet that never was written has nothing to lose and
takes any table. So does every sheet a table of slot and text alone, as it is
typed by hand; a line on standard error says that nothing can be told then.

The table may be as spreadsheets save it: UTF-8, or UTF-16 with a byte order
mark; lines that end with a carriage return; texts in quotation marks, with the
mark doubled inside; empty lines and empty columns at the end. A text that isn't
UTF-8 or is blanks alone, a column too many or a slot that is there twice is
refused. So is a caption that its \\x escapes make other than UTF-8 (exit status
15), unless the slot holds it already. Every line that can't be imported is
named, and then none is imported.

With --dry-run it prints a line for each change, with tabs between slot, \"write\"
or \"clear\", the caption's bytes of 192, old text and new text. The last line
counts:

    writes 2 clears 0 unchanged 6
",
        statuses: &[1, 2, 4, 5, 6, 7, 8, 10, 14, 15, 65, 66, 73, 75, 79],
    },
    Page {
        name: "keys",
        operands: &["FILE", "BITS"],
        options: &[WAIT],
        instead: None,
        usage: "FILE BITS [--wait SECONDS]",
        summary: "make a pair of keys",
        about: "\
Makes FILE a new pair of keys of BITS bits from the system's random source: 64,
96 or 128 for mCrypton, 80 or 128 for PRESENT. Only you can read it (mode 0600).
A file that exists is never overwritten (exit status 73): with its keys the
captions would be lost.
",
        statuses: &[1, 73, 75, 79],
    },
    Page {
        name: "terms",
        operands: &["FILE"],
        options: &[("--json", "print one JSON object")],
        instead: None,
        usage: "FILE [--json]",
        summary: "print when each slot is on show",
        about: "\
Prints the slot count of the term sheet FILE, then a line for each slot: its
number, opening date and closing date, or \"never\":

    1 2026-05-01 2026-10-31

A file that isn't a term sheet is printed as \"unfit\", which is an answer: the
exit status is 0. Why it is unfit is said on standard error.

With --json it prints an object with the members fit (true or false), slots,
reason and list; list has an object for each slot, with the members slot,
opening and closing. The dates of a slot that is never on show, and what an
unfit term sheet doesn't have, are null.
",
        statuses: &[66],
    },
    Page {
        name: "terms-blank",
        operands: &["FILE", "SLOTS"],
        options: &[
            ("--force", "blank a FILE that exists, if it is a term sheet"),
            WAIT,
        ],
        instead: None,
        usage: "FILE SLOTS [--force] [--wait SECONDS]",
        summary: "make a term sheet that shows nothing",
        about: "\
Makes FILE a term sheet for a sheet of SLOTS slots, 1 to 256. No slot is ever on
show by it: nothing is shown before its dates are set.

A FILE that exists is left alone (exit status 73) unless --force is given: all
its dates would be lost. Even then it is replaced only if it is empty or a term
sheet, torn or not, by its first bytes.
",
        statuses: &[3, 73, 75, 79],
    },
    Page {
        name: "terms-set",
        operands: &["FILE", "SLOT", "OPENING", "CLOSING"],
        options: &[("--never", "the slot is never on show"), WAIT],
        instead: Some(("--never", 2)),
        usage: "FILE SLOT (OPENING CLOSING | --never)\n[--wait SECONDS]",
        summary: "set when a slot is on show",
        about: "\
Sets the term of a slot in the term sheet FILE: it is on show from the date
OPENING to the date CLOSING, both included, or with --never on no day. The sheet
with the caption isn't looked at.

An OPENING after CLOSING would mean never, and is refused as a wrong command
line (exit status 64): it is nearly always a slip.
",
        statuses: &[4, 6, 11, 66, 73, 75, 79],
    },
    Page {
        name: "order",
        operands: &["FILE", "TERMS", "DATE"],
        options: &[
            ("--table", "print a table with headings"),
            (
                "--keys KEYS",
                "with --table: print the captions too, read with KEYS",
            ),
        ],
        instead: None,
        usage: "FILE TERMS DATE [--table [--keys KEYS]]",
        summary: "print what is on show on a day",
        about: "\
Prints the running order of the day DATE: a line for each written slot of FILE
that is on show by the term sheet TERMS, with its number, opening date, closing
date and length. The earliest opening comes first, and of those with the same
opening the lower slot:

    0 2000-01-01 2099-12-31 47
    1 2026-05-01 2026-10-31 71

Where nothing is on show it prints nothing, and the exit status is 0. It needs
no keys and tests no seal: an altered caption has its line too. An unfit FILE or
TERMS is printed as \"unfit\", else what is no date as \"no such date\"; the exit
status is then 4 or 11, and standard error has the refusal and why.

With --table it prints the same for people, under headings, and with --keys the
captions' texts as well. A text is on one line, with the escapes of captions
export but for \\&. Where one can't be read, the refusal's word stands there in
brackets, and the exit status is that of the first.

The program captions-order, installed beside captions, takes the same three
words and no options, and prints the same text. To it a file that isn't there or
can't be read is \"unfit\" as well, and a missing DATE is \"no such date\". Its exit
status is always 0.
",
        statuses: &[1, 2, 4, 5, 10, 11, 14, 65, 66],
    },
    Page {
        name: "bench",
        operands: &["KEYFILE", "ROUND", "ARRAY"],
        options: &[],
        instead: None,
        usage: "KEYFILE ROUND ARRAY",
        summary: "find the block that leads to an array",
        about: "\
For a bench that tests mCrypton chips by watching one round. Prints the one
block, 16 hex digits, that leads to ARRAY after the round ROUND when it is
sealed under the key in KEYFILE. No other block leads there.

ROUND 0 is after the first key addition, 12 after the last round and before phi,
the step that ends a sealing. ARRAY has the nibbles of the array row by row, as
a block has its own.
",
        statuses: &[1, 3, 13, 65, 66],
    },
    Page {
        name: "panel",
        operands: &["KEYFILE", "FIRST"],
        options: &[
            ("--file NAME", "the panel is what the file NAME holds"),
            ("--empty", "the panel has no bytes"),
            ("--output NAME", "put what is sealed into the file NAME"),
            ("--force", "replace an output file that exists"),
            WAIT,
        ],
        instead: None,
        usage: "KEYFILE FIRST\n[--file NAME | --empty] [--output NAME] [--force]\n[--wait SECONDS]",
        summary: "seal or open a wall panel",
        about: "\
Seals a wall panel of up to 65536 bytes, which needs no sheet, by counter mode
(CTR) of mCrypton under the key in KEYFILE. It is read from standard input and
printed on standard output, unless an option names a file. The same command with
the same KEYFILE and FIRST opens what is sealed.

The panel's blocks of 8 bytes use the numbers FIRST, FIRST + 1 and so on; after
18446744073709551615 comes 0. Standard error has the first number that is free
after them, which the next panel under this key may begin with. A panel of 11
bytes from the last number, and what is said of it:

    printf 'Bronze Age.' | captions panel wall.key 0xffffffffffffffff >sealed
    captions: the first free number after this panel is 0x0000000000000001

Under the key 0d2a4764819ebbd8 it is sealed to 3e5bf6b19b65dd4ee9f6f7, in hex:
eight bytes by the last number, and three by 0.

Never seal two panels under one key from the same numbers: whoever has both has
what they differ in, and with one of the two texts the other. The command can't
know which numbers are used, so it never chooses one: note them. Keep a key for
panels alone. Nothing shows that a sealed panel was changed on its way.

A panel of no bytes is sealed only where --empty is given: input that is empty
is taken for input that was lost (exit status 66).

An output file that exists is left alone (exit status 73) unless --force is
given. Even then a sheet, a term sheet or keys are never replaced, by their
first bytes.
",
        statuses: &[1, 7, 65, 66, 73, 75, 79],
    },
    Page {
        name: "help",
        operands: &["COMMAND"],
        options: &[],
        instead: None,
        usage: "[COMMAND]",
        summary: "explain a command",
        about: "\
Prints what a command does, or without COMMAND what there is. A command's own
--help prints the same.
",
        statuses: &[],
    },
];

/// The exit statuses and their meanings. A refusal's begins with its word.
const STATUSES: [(u8, &str); 23] = [
    (0, "done"),
    (
        1,
        "wrong key: a key in KEYS isn't 8, 10, 12 or 16 bytes, or their lengths\ndiffer; one in KEYFILE isn't 8, 12 or 16; there is no such CIPHER or BITS",
    ),
    (2, "twin keys: the two keys are equal"),
    (3, "wrong span: SLOTS isn't 1 to 256; ARRAY isn't 8 bytes"),
    (
        4,
        "unfit sheet: FILE isn't a sheet, or a rule of the layout is broken,\nwhich the line before says; TERMS isn't a term sheet with as many slots",
    ),
    (
        5,
        "other key class: the sheet's cipher has keys of another length; to blank\none, CIPHER has",
    ),
    (6, "no such slot: SLOT is the number of slots or more"),
    (
        7,
        "overlong: the caption has more than 192 bytes, the panel more than 65536",
    ),
    (8, "worn: the sheet has had 4294967295 writes"),
    (9, "blank: the slot to be read is blank"),
    (
        10,
        "altered: the check differs, or what was sealed isn't a caption",
    ),
    (
        11,
        "no such date: DATE, OPENING or CLOSING isn't a date, written\nYYYY-MM-DD, from 2000-01-01 to 2099-12-31",
    ),
    (
        12,
        "not on show: DATE is before the slot's opening or after its closing day",
    ),
    (13, "no such round: ROUND is above 12"),
    (
        14,
        "other keys: the sheet was blanked with other keys than those in KEYS, or\nits cipher, serial or mark was changed",
    ),
    (
        15,
        "broken text: the caption isn't UTF-8 of RFC 3629; the line before says\nwhere it breaks and why",
    ),
    (64, "the command line is wrong"),
    (65, "KEYS, KEYFILE or the table isn't in its form"),
    (
        66,
        "what is to be read isn't there, may not be read or is empty: a sheet,\nkeys, a caption, a table, a panel",
    ),
    (
        73,
        "FILE can't be made, or what is there isn't replaced; it is as it was",
    ),
    (
        74,
        "a file, standard input or standard output failed midway; a sheet is as\nit was",
    ),
    (
        75,
        "the folder stayed locked for as long as --wait allows; the sheet is\nas it was",
    ),
    (
        79,
        "done, and not to be repeated: the new file is in place, but its\nfolder can't be flushed, so it may not outlast a power cut",
    ),
];

/// The statuses that every command has.
const COMMON: [u8; 3] = [0, 64, 74];

const INTRODUCTION: &str = "\
usage: captions COMMAND ...

Caption sheets: up to 256 sealed captions of up to 192 bytes in one file.

Description:
For installers of touchscreens, for curators who write captions, and for the
engineer of the kiosk that shows them. A sheet has slots, numbered from 0; each
is blank or holds a caption, sealed under one key and checked under another.
What is accepted and what is refused is decided by a proved library; a refusal
changes nothing.
";

const OPTIONS: [(&str, &str); 3] = [
    ("-h, --help", "print this, or what a command does"),
    ("-V, --version", "print the version"),
    ("--", "the words after it are no options"),
];

const OPERANDS: [(&str, &str); 13] = [
    (
        "FILE",
        "a sheet or a term sheet; - is standard input where it is only read",
    ),
    ("SLOT", "a slot of the sheet, numbered from 0"),
    ("SLOTS", "the number of slots, 1 to 256"),
    (
        "CIPHER",
        "64, 96 or 128: mCrypton with so many bits; present-80 or present-128",
    ),
    ("BITS", "the length of a key: 64, 80, 96 or 128"),
    (
        "SERIAL",
        "a number, 0 to 65535: another one for each sheet under the same keys",
    ),
    (
        "KEYS",
        "a file with two lines of hex digits, the sealing key and the\nchecking key; - is standard input",
    ),
    ("TERMS", "a term sheet; - is standard input"),
    (
        "DATE",
        "a day as YYYY-MM-DD, from 2000-01-01 to 2099-12-31, as are OPENING\nand CLOSING",
    ),
    (
        "KEYFILE",
        "a file with one line of hex digits, a key of 8, 12 or 16 bytes; - is\nstandard input",
    ),
    (
        "FIRST",
        "the number of a panel's first block: 0 to 18446744073709551615, or 0x\nand hex digits",
    ),
    ("ROUND", "a round of mCrypton, 0 to 12"),
    ("ARRAY", "the nibbles of an array, row by row: 16 hex digits"),
];

const NOTES: &str = "
Keys:
Two keys, not equal, of a length that the sheet's cipher has: 8, 12 or 16 bytes
for mCrypton, 10 or 16 for PRESENT. One pair of keys serves a sheet, the pair
that it was blanked with. The sheet keeps a mark of it, and other keys are
refused before anything is opened or written (exit status 14); only captions
clear takes no keys. A sheet of edition 1 or 2, as captions made them before
0.5.0, has no mark: nothing stops a write under another pair there, and its slot
is then as a rule altered to whoever reads with the first. A warning is given
where the file of keys can be read or written by every user.

Terms:
A lender allows a caption only while the loan is on show. A term sheet, a file
kept beside the sheet, has an opening and a closing day for each slot; captions
read heeds it where it is named, and captions order prints what is on show on a
day. It is neither sealed nor checked: whoever can write it can put any caption
on show.

Files:
A change replaces FILE whole or not at all: whatever happens, a refusal, a full
disk, a kill or a power cut, FILE is the old sheet or the new one. The new sheet
is written to a file of its own in FILE's folder, .captions-new- and 32 hex
digits, flushed and renamed. One that a killed command left there is removed by
the next change in that folder, or after a day where another machine made it.

Mode, access control list and extended attributes are kept, or the change is
refused; owner and group are kept as far as you may set them, and another group
gets no more than all others had. A hard link to the old file stays with the old
sheet. A symbolic link is followed and stays. Only a regular file that you may
write is replaced, only by a file of its own kind, and never one that the same
command reads, by whatever name.

The folder is locked meanwhile: two changes at once happen one after the other.
Where a folder's lock isn't shared between machines, as in some network folders,
or can't be had at all, two changes at once can lose one of the two: the sheet
is then the other's, whole, and a write number may be used for both.

What a sheet can't tell:
An old sheet put back in the place of a newer one is a sound sheet: it lists,
reads and verifies as it did. Note the last write number elsewhere if that
matters. Neither does a sheet tell that a slot was cleared by somebody else. One
of edition 2 doesn't tell that its serial was changed: then a caption of eight
bytes or more reads with other bytes in its first eight places. On one of
edition 3 the mark covers the serial.

Messages:
Standard error has a line for every exit status but 0; a refusal's last line is
its number and word alone, and the line before it has what else is known: the
rule that is broken, what was given and what is allowed, or where a text breaks.
Warnings and hints are there too. Control characters in a file's name are shown
as escapes. A reader that closes the pipe early, as head does, is no error.
";

const EXAMPLES: &str = "
Examples:
A pair of keys, a sheet of six slots for it, a caption, and all captions as a
table that a spreadsheet can change:

    captions keys hall.keys 128
    captions blank hall.sheet 6 128 1 hall.keys
    captions write hall.sheet 1 hall.keys --text 'Vase with cranes.'
    captions read hall.sheet 1 hall.keys
    captions export hall.sheet hall.keys >hall.tsv
    captions import hall.sheet hall.keys --file hall.tsv

See also:
The tour, examples/README.md, and the bytes of a sheet, docs/FORMAT.md, are in
the repository. C programs link the library that pkg-config(1) knows as
captions.
";

/// What `captions help` prints.
pub fn overview() -> String {
    let commands = PAGES.map(|page| (synopsis(&page), page.summary));
    let mut text = INTRODUCTION.to_string();
    section(
        &mut text,
        "Commands",
        commands.iter().map(|(a, b)| (&**a, *b)),
    );
    section(&mut text, "Options", OPTIONS);
    section(&mut text, "Operands", OPERANDS);
    text += NOTES;
    status_section(&mut text, |_| true);
    text + EXAMPLES
}

/// The commands and what each does, for whoever gave none.
pub fn commands() -> String {
    let mut text = "usage: captions COMMAND ...\n".to_string();
    let items = PAGES.map(|page| (page.name, page.summary));
    section(&mut text, "Commands", items);
    text
}

/// What `captions help COMMAND` prints.
pub fn page(page: &Page) -> String {
    let mut text = usage(page) + "\n" + page.about;
    if !page.options.is_empty() {
        section(&mut text, "Options", page.options.iter().copied());
    }
    status_section(&mut text, |status| {
        COMMON.contains(&status) || page.statuses.contains(&status)
    });
    text
}

/// The usage of a command alone, each line with its line feed.
pub fn usage(page: &Page) -> String {
    let indented = page.usage.replace('\n', &format!("\n{:16}", ""));
    format!("usage: captions {} {indented}\n", page.name)
}

fn synopsis(page: &Page) -> String {
    format!("{} {}", page.name, page.operands.join(" "))
}

fn status_section(text: &mut String, wanted: impl Fn(u8) -> bool) {
    let wanted = STATUSES.iter().filter(|(status, _)| wanted(*status));
    let items: Vec<(String, &str)> = wanted
        .map(|(status, meaning)| (format!("{status:2}"), *meaning))
        .collect();
    section(text, "Exit status", items.iter().map(|(a, b)| (&**a, *b)));
}

/// A section's items, with their texts in one column.
fn section<'a>(
    text: &mut String,
    title: &str,
    items: impl IntoIterator<Item = (&'a str, &'a str)>,
) {
    let items: Vec<(&str, &str)> = items.into_iter().collect();
    let width = items.iter().map(|(term, _)| term.len()).max().unwrap_or(0);
    *text += &format!("\n{title}:\n");
    for (term, meaning) in items {
        let meaning = meaning.replace('\n', &format!("\n{:1$}", "", width + 4));
        *text += &format!("  {term:width$}  {meaning}\n");
    }
}
