//! The static library's symbols as they are, and one safe function over each that takes a slice or a state. All `unsafe` of the
//! crate is here.
//!
//! The library keeps nothing between calls, allocates nothing and takes every argument: no call has a precondition but that a
//! pointer is what its type says. No struct has padding, so each byte of an answer is one of a number's.

use crate::{State, Table};
use core::mem::{align_of, offset_of, size_of};
use core::ptr;

#[repr(C)]
#[derive(Clone, Debug, PartialEq, Eq)]
pub struct Reading {
    pub question: u32,
    pub at: u32,
    pub table: Table,
}

#[repr(C)]
#[derive(Clone, Debug, PartialEq, Eq)]
pub struct Turned {
    pub question: u32,
    pub table: Table,
}

#[repr(C)]
#[derive(Clone, Copy, Debug, PartialEq, Eq)]
pub struct Head {
    pub question: u32,
    pub length: u32,
}

#[repr(C)]
#[derive(Clone, Copy, Debug, PartialEq, Eq)]
pub struct Started {
    pub question: u32,
    pub state: State,
}

#[repr(C)]
#[derive(Clone, Copy, Debug, PartialEq, Eq)]
pub struct Turn {
    pub question: u32,
    pub side: u32,
}

#[repr(C)]
#[derive(Clone, Copy, Debug, PartialEq, Eq)]
pub struct Verdict {
    pub outcome: u8,
    pub question: u8,
    pub party: u8,
    pub reason: u8,
    pub field: u8,
}

#[repr(C)]
#[derive(Clone, Copy, Debug, PartialEq, Eq)]
pub struct Batch {
    pub used_device: usize,
    pub used_host: usize,
    pub written_to_device: usize,
    pub written_to_host: usize,
    pub last: Verdict,
    pub reserved: [u8; 3],
}

#[repr(C)]
#[derive(Clone, Copy, Debug, PartialEq, Eq)]
pub struct Due {
    pub side: u32,
    pub length: u32,
}

#[repr(C)]
#[derive(Clone, Copy, Debug, PartialEq, Eq)]
pub struct Made {
    pub question: u32,
    pub length: u32,
}

#[repr(C)]
#[derive(Clone, Copy, Debug, PartialEq, Eq)]
pub struct Fit {
    pub outcome: u32,
    pub question: u32,
    pub count: u32,
    pub high: u32,
}

#[repr(C)]
#[derive(Clone, Copy, Debug, PartialEq, Eq)]
pub struct Warning {
    pub question: u32,
    pub warns: u32,
    pub sender: u32,
    pub estimate: u32,
}

/// A step's outcomes; of a batch's last answer also that none was due.
pub const FORWARDED: u8 = 0;
pub const REFUSED: u8 = 1;
pub const BLAMED: u8 = 2;
pub const NONE_DUE: u8 = 3;

/// A fit check's outcomes.
pub const FITS: u32 = 0;
pub const FAILS: u32 = 1;
pub const FIT_REFUSED: u32 = 2;

/// Reasons.
pub const NO_LABEL: u8 = 1;
pub const OTHER_KINDS: u8 = 2;
pub const OUT_OF_RANGE: u8 = 3;
pub const EARLY: u8 = 4;

/// In the place of a field's number: no field is high, all numbers are low.
pub const ALL_LOW: u32 = 255;

/// In the place of an estimate: there is none.
pub const NO_ESTIMATE: u32 = 65535;

/// Where a state's counts begin, behind its position and standing: the setting, n and k.
const COUNTS: usize = offset_of!(State, setting);

/// Asserts where each field of a struct stands, in bytes, and the struct's size and alignment.
macro_rules! laid_out {
    ($name:ident, $size:literal, $align:literal, $($field:ident $offset:literal),+) => {
        const _: () = assert!(size_of::<$name>() == $size && align_of::<$name>() == $align);
        $(const _: () = assert!(offset_of!($name, $field) == $offset);)+
    };
}

laid_out!(
    Table, 9360, 4,
    states 0, branches 4, sort 8, owner 136, target 648, fields 1160, label_high 1672, label_low 2184,
    kind 2696, low 4744, high 6792, share 8840, edition 9352, reserved 9356
);
laid_out!(Reading, 9368, 4, question 0, at 4, table 8);
laid_out!(Turned, 9364, 4, question 0, table 4);
laid_out!(Head, 8, 4, question 0, length 4);
laid_out!(State, 324, 2, position 0, standing 1, setting 2, n 4, k 68);
laid_out!(Started, 328, 4, question 0, state 4);
laid_out!(Turn, 8, 4, question 0, side 4);
laid_out!(Verdict, 5, 1, outcome 0, question 1, party 2, reason 3, field 4);
laid_out!(
    Batch, 40, 8,
    used_device 0, used_host 8, written_to_device 16, written_to_host 24, last 32, reserved 37
);
laid_out!(Due, 8, 4, side 0, length 4);
laid_out!(Made, 8, 4, question 0, length 4);
laid_out!(Fit, 16, 4, outcome 0, question 4, count 8, high 12);
laid_out!(Warning, 16, 4, question 0, warns 4, sender 8, estimate 12);

// SAFETY: the signatures are those of the exported functions. A `&` or `&mut` is the pointer that they take; a state is taken by
// two pointers, to its two bytes and to its counts. What is `safe` takes references and values alone.
unsafe extern "C" {
    pub safe fn sojimu_version() -> u32;
    pub safe fn sojimu_abi_6() -> u32;
    pub safe fn sojimu_sound(table: &Table) -> bool;
    pub safe fn sojimu_sound_at(table: &Table, position: u32) -> bool;
    pub safe fn sojimu_empty() -> Table;
    pub safe fn sojimu_dual(table: &Table) -> Turned;
    pub safe fn sojimu_label_legal(label: u64) -> bool;
    pub safe fn sojimu_range_legal(kind: u32, low: u32, high: u32) -> bool;
    pub safe fn sojimu_fresh(table: &Table, setting: u32) -> Started;
    fn sojimu_raw_turn(table: &Table, state: *const u8, counts: *const u16) -> Turn;
    fn sojimu_raw_read(text: *const u8, length: usize) -> Reading;
    fn sojimu_raw_report(
        protocol: *const u8,
        protocol_length: usize,
        device: *const u8,
        device_length: usize,
        out: *mut u8,
        room: usize,
    ) -> usize;
    fn sojimu_raw_front(bytes: *const u8, length: usize) -> Head;
    fn sojimu_raw_broken(bytes: *const u8, length: usize) -> bool;
    fn sojimu_raw_refusal(bytes: *const u8, length: usize) -> u32;
    fn sojimu_raw_has_label(bytes: *const u8, length: usize, label: u64) -> bool;
    fn sojimu_raw_make(table: &Table, branch: u32, named: u32, out: *mut u8, room: usize) -> Made;
    fn sojimu_raw_step(
        table: &Table,
        state: *mut u8,
        counts: *mut u16,
        side: u32,
        message: *const u8,
        length: usize,
        out: *mut u8,
        room: usize,
    ) -> Verdict;
    fn sojimu_raw_batch(
        table: &Table,
        state: *mut u8,
        counts: *mut u16,
        device: *const u8,
        device_length: usize,
        host: *const u8,
        host_length: usize,
        to_device: *mut u8,
        device_room: usize,
        to_host: *mut u8,
        host_room: usize,
    ) -> Batch;
    fn sojimu_raw_due(
        table: &Table,
        state: *const u8,
        counts: *const u16,
        device: *const u8,
        device_length: usize,
        host: *const u8,
        host_length: usize,
    ) -> Due;
    fn sojimu_raw_warning(table: &Table, state: *const u8, counts: *const u16, branch: u32) -> Warning;
    fn sojimu_raw_fit(device: &Table, protocol: &Table, list: *mut u16, room: usize) -> Fit;
}

#[inline]
pub fn read(text: &[u8]) -> Reading {
    // SAFETY: pointer and length are those of one slice, which is only read.
    unsafe { sojimu_raw_read(text.as_ptr(), text.len()) }
}

#[inline]
pub fn report(protocol: &[u8], device: &[u8], out: &mut [u8]) -> usize {
    let (from, length) = (protocol.as_ptr(), protocol.len());
    // SAFETY: each pointer and length are those of one slice; the output is lent to this call alone.
    unsafe { sojimu_raw_report(from, length, device.as_ptr(), device.len(), out.as_mut_ptr(), out.len()) }
}

#[inline]
pub fn front(bytes: &[u8]) -> Head {
    // SAFETY: pointer and length are those of one slice, which is only read.
    unsafe { sojimu_raw_front(bytes.as_ptr(), bytes.len()) }
}

#[inline]
pub fn broken(bytes: &[u8]) -> bool {
    // SAFETY: pointer and length are those of one slice, which is only read.
    unsafe { sojimu_raw_broken(bytes.as_ptr(), bytes.len()) }
}

#[inline]
pub fn refusal(bytes: &[u8]) -> u32 {
    // SAFETY: pointer and length are those of one slice, which is only read.
    unsafe { sojimu_raw_refusal(bytes.as_ptr(), bytes.len()) }
}

#[inline]
pub fn has_label(bytes: &[u8], label: u64) -> bool {
    // SAFETY: pointer and length are those of one slice, which is only read.
    unsafe { sojimu_raw_has_label(bytes.as_ptr(), bytes.len(), label) }
}

#[inline]
pub fn make(table: &Table, branch: u32, named: u32, out: &mut [u8]) -> Made {
    // SAFETY: the table is whole; pointer and length are those of one slice, lent to this call alone.
    unsafe { sojimu_raw_make(table, branch, named, out.as_mut_ptr(), out.len()) }
}

/// A state that is lent to be advanced: its position and standing, and its counts.
#[inline]
fn parts_mut(state: &mut State) -> (*mut u8, *mut u16) {
    let bytes = ptr::from_mut(state).cast::<u8>();
    // SAFETY: the counts stand in the same state, and are aligned as it is.
    (bytes, unsafe { bytes.add(COUNTS).cast() })
}

/// The same of a state that is only read.
#[inline]
fn parts(state: &State) -> (*const u8, *const u16) {
    let bytes = ptr::from_ref(state).cast::<u8>();
    // SAFETY: the counts stand in the same state, and are aligned as it is.
    (bytes, unsafe { bytes.add(COUNTS).cast() })
}

#[inline]
pub fn turn(table: &Table, state: &State) -> Turn {
    let (state, counts) = parts(state);
    // SAFETY: the table is whole; both pointers are those of one whole state, which is only read.
    unsafe { sojimu_raw_turn(table, state, counts) }
}

#[inline]
pub fn step(table: &Table, state: &mut State, side: u32, message: &[u8], out: &mut [u8]) -> Verdict {
    let ((state, counts), (bytes, length)) = (parts_mut(state), (message.as_ptr(), message.len()));
    // SAFETY: the table is whole; each pointer and length are those of one slice; state and counts are two parts of one whole
    // state, which is lent to this call alone, as the output is.
    unsafe { sojimu_raw_step(table, state, counts, side, bytes, length, out.as_mut_ptr(), out.len()) }
}

#[inline]
pub fn batch(table: &Table, state: &mut State, device: &[u8], host: &[u8], to_device: &mut [u8], to_host: &mut [u8]) -> Batch {
    let (state, counts) = parts_mut(state);
    // SAFETY: the table is whole; each pointer and length are those of one slice; state and counts are two parts of one whole
    // state, which is lent to this call alone, as the outputs are.
    unsafe {
        sojimu_raw_batch(
            table,
            state,
            counts,
            device.as_ptr(),
            device.len(),
            host.as_ptr(),
            host.len(),
            to_device.as_mut_ptr(),
            to_device.len(),
            to_host.as_mut_ptr(),
            to_host.len(),
        )
    }
}

#[inline]
pub fn due(table: &Table, state: &State, device: &[u8], host: &[u8]) -> Due {
    let (state, counts) = parts(state);
    // SAFETY: the table is whole, and so is the state that state and counts are parts of; each pointer and length are those of one
    // slice. All are only read.
    unsafe { sojimu_raw_due(table, state, counts, device.as_ptr(), device.len(), host.as_ptr(), host.len()) }
}

#[inline]
pub fn warning(table: &Table, state: &State, branch: u32) -> Warning {
    let (state, counts) = parts(state);
    // SAFETY: the table is whole; both pointers are those of one whole state, which is only read.
    unsafe { sojimu_raw_warning(table, state, counts, branch) }
}

#[inline]
pub fn fit(device: &Table, protocol: &Table, list: &mut [u16]) -> Fit {
    // SAFETY: both tables are whole; pointer and length are those of one slice, lent to this call alone.
    unsafe { sojimu_raw_fit(device, protocol, list.as_mut_ptr(), list.len()) }
}
