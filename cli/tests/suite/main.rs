//! The command, run as at a shell.

mod attributes;
mod bench;
mod commands;
/// The editions, from the second program's tests.
#[path = "../../../reference/tests/suite/edition.rs"]
mod edition;
mod faults;
mod files;
mod help;
mod keys;
mod kills;
mod leftovers;
mod listing;
mod map;
mod no_work_lost;
mod one_pair;
mod order;
mod panel;
mod present;
mod reasons;
mod refusals;
mod streams;
mod support;
mod table;
mod terminal;
mod terms;
mod text;
mod together;
mod usage;
mod waiting;
