//! The tests of the reference program. What they expect is worked out by hand
//! from the paper, not by the code under test.

mod arrangements;
mod cancels;
mod cancels_faults;
mod cancels_trace;
mod check_rules;
mod commands;
mod common;
mod cuts;
mod examples;
mod extremes;
mod history;
mod lent_memory;
mod not_plain;
mod refusals;
mod repair;
mod replays;
mod runs;
mod scripted;
mod sectors;
mod totals;
mod trace;
mod writes;
