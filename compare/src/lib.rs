//! Runs the library and the second program on the same generated images and
//! commands, and on the same tables of totals and sheets, and compares every
//! number and every byte after each call.

#![deny(unsafe_code)]

mod calls;
pub mod cancels;
mod changing;
pub mod count;
mod cut_case;
mod cut_tally;
pub mod cuts;
mod difference;
mod discs;
pub mod ffi;
pub mod kind;
mod law_tally;
mod laws;
mod lend;
mod library;
mod list_case;
mod list_tally;
pub mod load;
mod marks;
mod met;
pub mod options;
mod pair;
#[cfg(test)]
mod planted_change;
#[cfg(test)]
mod planted_repair;
mod repair_tally;
pub mod run;
pub mod runs;
mod several;
mod sheet_case;
mod sheet_tally;
pub mod table;
mod tally;
mod twin;
pub mod writing;
