//! The listing, with outputs exactly large enough, one byte short, larger and
//! of length 0.

use differential::both::Both;
use differential::edition::Edition;
use differential::lent::Place;
use differential::random::{seed, Random};
use differential::report;
use differential::sheets::{fit_sheet, key_bytes, kinds, near_sheet, set_last_number, FAULTS};

fn both(test: &str) -> Both {
    Both::new(Place::Guarded, &format!("{test}, seed {:#x}", seed()))
}

#[test]
fn the_example_of_document_01_with_every_class() {
    let mut both = both("the example");
    for (edition, t) in kinds() {
        let sheet = edition.blank_sheet(2, t);
        let bits = 8 * key_bytes(t);
        let listing = format!("slots 2 key {bits} last 0\n0 blank\n1 blank\n");
        for out in 0..=listing.len() + 3 {
            both.list_into(&sheet, listing.as_bytes(), out);
        }
    }
    let listings = both.listings;
    report(&format!(
        "listing: the example into {listings} lengths of output"
    ));
}

#[test]
fn fit_sheets() {
    let mut random = Random::of_part(400);
    let mut both = both("fit sheets");
    for (edition, t) in kinds() {
        for n in (1..=12).chain([99, 100, 101, 255, 256]) {
            for _ in 0..12 {
                let sheet = fit_sheet(&mut random, edition, n, t);
                assert!(reference::fit(&sheet));
                both.list(&sheet);
            }
        }
    }
    let listings = both.listings;
    report(&format!(
        "listing: fit sheets of 1 to 256 slots, {listings} listings, seed {:#x}",
        seed()
    ));
}

/// The first sheet's listing into every length of output.
#[test]
fn every_length_of_output() {
    let mut random = Random::of_part(401);
    let mut both = both("every length of output");
    for (edition, t) in kinds() {
        for n in [1, 3, 11] {
            let sheet = fit_sheet(&mut random, edition, n, t);
            let listing = reference::listing(&sheet);
            for out in 0..=listing.len() + 40 {
                both.list_into(&sheet, &listing, out);
            }
        }
    }
    for out in 0..=20 {
        both.list_into(b"", b"unfit\n", out);
    }
    let listings = both.listings;
    report(&format!(
        "listing: every length of output, {listings} listings"
    ));
}

/// Numbers on both sides of each count of digits.
#[test]
fn last_numbers_of_every_count_of_digits() {
    let mut both = both("last numbers");
    for edition in Edition::ALL {
        let mut sheet = edition.blank_sheet(1, 8);
        for power in 0..10 {
            let ten = 10u32.pow(power);
            for w in [ten - 1, ten, ten + 1, 3 * ten, u32::MAX - ten, u32::MAX] {
                set_last_number(&mut sheet, w);
                both.list(&sheet);
            }
        }
    }
    let listings = both.listings;
    report(&format!(
        "listing: last numbers of 1 to 10 digits, {listings} listings"
    ));
}

#[test]
fn sheets_with_a_rule_broken() {
    let mut random = Random::of_part(402);
    let mut both = both("sheets with a rule broken");
    let mut unfit = 0;
    for (edition, t) in kinds() {
        for n in [1, 2, 3, 10, 255, 256] {
            for fault in 0..FAULTS {
                for _ in 0..4 {
                    let sheet = near_sheet(&mut random, edition, n, t, fault);
                    unfit += usize::from(!reference::fit(&sheet));
                    both.list(&sheet);
                }
            }
        }
    }
    let listings = both.listings;
    report(&format!(
        "listing: {} near-sheets, {unfit} of them unfit, {listings} listings",
        listings / 5
    ));
}

#[test]
fn lengths_around_the_shortest_and_the_longest() {
    let mut random = Random::of_part(403);
    let mut both = both("lengths of sheets");
    let longest = (53_255..=53_257).chain(53_263..=53_265);
    let long = longest.chain([53_048, 53_056, 53_464, 53_472, 65_536, 1_000_000]);
    for length in (0..=24).chain(210..=230).chain(long) {
        both.list(&vec![0; length]);
        both.list(&random.bytes(length));
        for edition in Edition::ALL {
            for n in [1, 256] {
                let mut sheet = fit_sheet(&mut random, edition, n, 6);
                sheet.resize(length, 0);
                both.list(&sheet);
            }
        }
    }
    let listings = both.listings;
    report(&format!(
        "listing: lengths from 0 to 1000000, {listings} listings"
    ));
}
