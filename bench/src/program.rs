//! The two programs as tables of the same functions.
//!
//! Both are called through function pointers, so that neither is inlined into
//! the timing loops.

use compare::ffi;
use reference::{Checked, Filled, Reading};

type Read = fn(&[u8], u32, u32, &[u8], &mut [u8]) -> Reading;
type Save = fn(&mut [u8], u32, u32, &[u8], u32, u16, u16, &[u8], &mut [u8]) -> Filled;
type Delete = fn(&mut [u8], u32, u32, &[u8], &mut [u8]) -> Filled;
type Rename = fn(&mut [u8], u32, u32, &[u8], &[u8], &mut [u8]) -> Filled;
type Protect = fn(&mut [u8], u32, u32, &[u8], u32, &mut [u8]) -> Filled;

pub struct Program {
    pub check: fn(&[u8], u32, u32) -> Checked,
    pub list: fn(&[u8], u32, u32, &mut [u8]) -> Filled,
    pub read: Read,
    pub save: Save,
    pub delete: Delete,
    pub rename: Rename,
    pub protect: Protect,
    pub replay: fn(&mut [u8], u32, u32, &[u8]) -> u32,
    pub repair: fn(&mut [u8], u32, u32) -> u32,
    pub blank: fn(&mut [u8], u32, u32, &[u8]) -> u32,
    pub view_number: fn(&[u8], u32, u32, u32, u32) -> u32,
    pub add_sheet: fn(&mut [u32], &[u8]) -> u32,
}

pub static LIBRARY: Program = Program {
    check: ffi::check,
    list: ffi::list,
    read: ffi::read,
    save: ffi::save,
    delete: ffi::delete,
    rename: ffi::rename,
    protect: ffi::protect,
    replay: ffi::replay,
    repair: ffi::repair,
    blank: ffi::blank,
    view_number: ffi::view_number,
    add_sheet: ffi::add_sheet,
};

pub static SECOND: Program = Program {
    check: reference::check,
    list: reference::list,
    read: reference::read,
    save: reference::save,
    delete: reference::delete,
    rename: reference::rename,
    protect: reference::protect,
    replay: reference::replay,
    repair: reference::repair,
    blank: reference::blank,
    view_number: reference::view_number,
    add_sheet: reference::add_sheet,
};
