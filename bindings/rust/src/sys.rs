//! The declarations of `include/bracha.h`. Nothing but `tests/header.rs` compares them with the
//! header.

use core::ffi::c_void;

/// A handle: one pointer that the library owns.
#[repr(C)]
#[derive(Clone, Copy)]
pub(crate) struct Handle(pub(crate) *mut c_void);

/// A handle before it is opened.
pub(crate) const NO_HANDLE: Handle = Handle(core::ptr::null_mut());

#[repr(C)]
#[derive(Default)]
pub(crate) struct RawDecision {
    pub(crate) round: u8,
    pub(crate) bit: u8,
}

unsafe extern "C" {
    pub(crate) fn bracha_abi() -> u32;
    pub(crate) fn bracha_version() -> u32;

    pub(crate) fn bracha_core_open(
        core: *mut Handle,
        n: u8,
        t: u8,
        questions: u16,
        me: u8,
        records: *const u8,
        len: usize,
    ) -> i32;
    pub(crate) fn bracha_core_close(core: Handle);
    pub(crate) fn bracha_core_hear(
        core: *mut Handle,
        from: u8,
        statement: *const u8,
        toss: u64,
        records: *mut u8,
        count: *mut usize,
    ) -> i32;
    pub(crate) fn bracha_core_propose(
        core: *mut Handle,
        question: u16,
        bit: bool,
        toss: u64,
        records: *mut u8,
        count: *mut usize,
    ) -> i32;
    pub(crate) fn bracha_core_verdict(
        core: *mut Handle,
        question: u16,
        decision: *mut RawDecision,
    ) -> bool;
    pub(crate) fn bracha_audit(
        n: u8,
        t: u8,
        questions: u16,
        question: u16,
        bit: bool,
        pairs: *const u8,
        len: usize,
    ) -> i32;

    pub(crate) fn bracha_encode_idle(frame: *mut u8);
    pub(crate) fn bracha_encode_hello(
        version: u8,
        cluster: u64,
        n: u8,
        t: u8,
        questions: u16,
        from: u8,
        to: u8,
        frame: *mut u8,
    ) -> i32;
    pub(crate) fn bracha_encode_welcome(next: u64, frame: *mut u8);
    pub(crate) fn bracha_encode_statement(statement: *const u8, frame: *mut u8) -> i32;
    pub(crate) fn bracha_encode_statements(
        statements: *const u8,
        len: usize,
        frame: *mut u8,
        written: *mut usize,
    ) -> i32;

    pub(crate) fn bracha_feeder_open(feeder: *mut Handle, n: u8, t: u8, questions: u16) -> i32;
    pub(crate) fn bracha_feeder_close(feeder: Handle);
    pub(crate) fn bracha_feeder_feed(feeder: *mut Handle, bytes: *const u8, len: usize) -> i32;
    pub(crate) fn bracha_feeder_next(feeder: *mut Handle, body: *mut u8, count: *mut usize) -> i32;

    pub(crate) fn bracha_toss_open(toss: *mut Handle, seed: *const u8, stream: u64) -> i32;
    pub(crate) fn bracha_toss_next(toss: *mut Handle) -> u64;
    pub(crate) fn bracha_toss_close(toss: Handle);

    pub(crate) fn bracha_batch_head(
        cluster: u64,
        n: u8,
        t: u8,
        questions: u16,
        me: u8,
        head: *mut u8,
    ) -> i32;
    pub(crate) fn bracha_batch_encode(
        records: *const u8,
        len: usize,
        bytes: *mut u8,
        room: usize,
        written: *mut usize,
    ) -> i32;
    pub(crate) fn bracha_batch_read(
        cluster: u64,
        n: u8,
        t: u8,
        questions: u16,
        me: u8,
        file: *const u8,
        len: usize,
        records: *mut u8,
        room: usize,
        written: *mut usize,
        end: *mut usize,
    ) -> i32;
}
