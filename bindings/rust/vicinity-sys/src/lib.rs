//! The calls of libvicinity, as `vicinity.h` declares them: there is said what each does, and what
//! its caller has to ensure. The crate `vicinity` makes them safe.
#![no_std]
#![allow(non_camel_case_types)]

/// The interface for which these declarations are; compare it with `vicinity_interface()`.
pub const VICINITY_INTERFACE: u32 = 2;

/// The first line of a log.
pub const VICINITY_HEADER_LINE: &str = "vicinity-log 3\n";

#[repr(C)]
#[derive(Clone, Copy, Debug)]
pub struct vicinity_answer {
    pub kind: u32,
    pub status: u32,
    pub count: u32,
    pub line: u32,
    pub fault: u32,
    pub mask_len: u32,
    pub mask_value: u64,
    pub uid: u64,
    pub text: [u8; 64],
}

#[repr(C)]
#[derive(Clone, Copy, Debug, Default, PartialEq, Eq)]
pub struct vicinity_finding {
    pub kind: u32,
    pub line: u32,
    pub mask_len: u32,
    pub zero: u32,
    pub mask_value: u64,
    pub uid: u64,
}

#[repr(C)]
#[derive(Clone, Copy, Debug, Default, PartialEq, Eq)]
pub struct vicinity_weakest {
    pub margin: u32,
    pub mask_len: u32,
    pub mask_value: u64,
    pub has_hidden: u32,
    pub hidden_len: u32,
    pub hidden_value: u64,
    pub has_deaf: u32,
    pub deaf_len: u32,
    pub deaf_value: u64,
}

#[repr(C)]
#[derive(Clone, Copy, Debug, Default, PartialEq, Eq)]
pub struct vicinity_frame {
    pub fault: u32,
    pub len: u32,
    pub bytes: [u8; 16],
}

#[repr(C)]
#[derive(Clone, Copy, Debug, Default, PartialEq, Eq)]
pub struct vicinity_request {
    pub fault: u32,
    pub link: u32,
    pub slots: u32,
    pub mask_len: u32,
    pub mask_value: u64,
    pub uid: u64,
}

#[repr(C)]
#[derive(Clone, Copy, Debug, Default, PartialEq, Eq)]
pub struct vicinity_reply {
    pub fault: u32,
    pub flags: u16,
    pub dsfid: u16,
    pub uid: u64,
}

#[repr(C)]
#[derive(Clone, Copy, Debug, Default, PartialEq, Eq)]
pub struct vicinity_mask {
    pub fault: u32,
    pub len: u32,
    pub value: u64,
}

#[repr(C)]
#[derive(Clone, Copy, Debug)]
pub struct vicinity_line {
    pub fault: u32,
    pub len: u32,
    pub text: [u8; 132],
}

#[repr(C)]
#[derive(Clone, Copy, Debug)]
pub struct vicinity_name {
    pub len: u32,
    pub text: [u8; 28],
}

extern "C" {
    pub fn vicinity_interface() -> u32;
    pub fn vicinity_version() -> u32;
    pub fn vicinity_check(text: *const u8, text_len: usize, answer: *mut vicinity_answer) -> u32;
    pub fn vicinity_explain(
        text: *const u8, text_len: usize, answer: *mut vicinity_answer, population: *mut u64,
        room: usize, needed: *mut usize,
    ) -> u32;
    pub fn vicinity_report(
        text: *const u8, text_len: usize, answer: *mut vicinity_answer,
        findings: *mut vicinity_finding, room: usize, needed: *mut usize,
    ) -> u32;
    pub fn vicinity_check_listed(
        text: *const u8, text_len: usize, uids: *const u64, count: usize,
        answer: *mut vicinity_answer,
    ) -> u32;
    pub fn vicinity_margin(
        text: *const u8, text_len: usize, answer: *mut vicinity_answer,
        weakest: *mut vicinity_weakest,
    ) -> u32;
    pub fn vicinity_margin_listed(
        text: *const u8, text_len: usize, uids: *const u64, count: usize,
        answer: *mut vicinity_answer, weakest: *mut vicinity_weakest,
    ) -> u32;
    pub fn vicinity_simulate(
        text: *const u8, text_len: usize, filled: *mut u8, room: usize, needed: *mut usize,
    ) -> u32;
    pub fn vicinity_run(
        command: u32, names: *const u8, names_len: usize, texts: *const u8, texts_len: usize,
        lengths: *const usize, count: usize, written: *mut u8, room: usize, needed: *mut usize,
    ) -> u32;
    pub fn vicinity_kind_name(kind: u32, name: *mut vicinity_name) -> u32;
    pub fn vicinity_fault_name(fault: u32, name: *mut vicinity_name) -> u32;
    pub fn vicinity_write_inventory(
        link: u32, slots: u32, mask_len: u32, mask_value: u64, frame: *mut vicinity_frame,
    ) -> u32;
    pub fn vicinity_write_stay_quiet(link: u32, uid: u64, frame: *mut vicinity_frame) -> u32;
    pub fn vicinity_write_response(
        flags: u32, dsfid: u32, uid: u64, frame: *mut vicinity_frame,
    ) -> u32;
    pub fn vicinity_add_crc(bytes: *const u8, len: usize, frame: *mut vicinity_frame) -> u32;
    pub fn vicinity_read_request(
        bytes: *const u8, len: usize, request: *mut vicinity_request,
    ) -> u32;
    pub fn vicinity_read_response(bytes: *const u8, len: usize, reply: *mut vicinity_reply) -> u32;
    pub fn vicinity_slot_mask(
        slots: u32, mask_len: u32, mask_value: u64, slot: u32, mask: *mut vicinity_mask,
    ) -> u32;
    pub fn vicinity_write_line(
        letter: u8, bytes: *const u8, len: usize, uid: u64, line: *mut vicinity_line,
    ) -> u32;
}
