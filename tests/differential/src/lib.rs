//! What the tests share: the library's calls, memory to lend, a seeded
//! generator, sheets, term sheets, and every call made on both programs and
//! compared.

pub mod both;
/// DES-EDE3, another 64-bit block cipher, from the second program's tests.
#[path = "../../../reference/tests/suite/des.rs"]
pub mod des;
/// The editions, from the second program's tests.
#[path = "../../../reference/tests/suite/edition.rs"]
pub mod edition;
pub mod lent;
/// Texts well formed and broken, from the second program's tests.
#[path = "../../../reference/tests/suite/letters.rs"]
pub mod letters;
pub mod library;
pub mod openssl;
pub mod random;
pub mod sheets;
/// Term sheets laid out, from the second program's tests.
#[path = "../../../reference/tests/suite/term_sheet.rs"]
pub mod term_sheet;
pub mod terms;

use std::io::Write;

/// Prints a line also where the test harness keeps back what a passing test
/// prints, so that a run's counts stand in its output.
pub fn report(line: &str) {
    let mut out = std::io::stdout().lock();
    writeln!(out, "{line}").expect("standard output takes the report");
}
