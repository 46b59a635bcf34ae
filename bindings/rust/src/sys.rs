//! The functions and structs of `include/sandbox_broker.h`.

use std::ffi::c_void;

pub const OK: u32 = 0;
pub const NO_MEMORY: u32 = 2;
pub const FAULT: u32 = 3;
pub const NO_ROOM: u32 = 4;
pub const TOO_BIG: u32 = 6;

#[repr(C)]
#[derive(Clone, Copy, Default)]
pub struct Argument {
    pub is_text: u32,
    pub start: u32,
    pub length: u32,
    pub room: u32,
    pub number: u64,
}

#[repr(C)]
pub struct Handle {
    pub live: u64,
    pub at: *mut c_void,
}

#[repr(C)]
#[derive(Clone, Copy, Default)]
pub struct TextFault {
    pub line: u32,
    pub column: u32,
    pub number: u64,
}

#[repr(C)]
#[derive(Clone, Copy, Default)]
pub struct CallVerdict {
    pub has_rule: u32,
    pub line: u32,
    pub action: u32,
    pub room: u32,
}

#[repr(C)]
#[derive(Clone, Copy, Default)]
pub struct CopyDecision {
    pub outcome: u32,
    pub call: u32,
    pub has_rule: u32,
    pub line: u32,
    pub action: u32,
    pub fault: u32,
    pub arguments: u64,
}

#[repr(C)]
#[derive(Clone, Copy, Default)]
pub struct HostAnswer {
    pub status: u32,
    pub count: u32,
    pub handle: u64,
    pub words: [u64; 7],
}

#[repr(C)]
#[derive(Clone, Copy, Default)]
pub struct Step {
    pub kind: u32,
    pub channel: u32,
    pub word: u32,
    pub room: u32,
    pub expected: u64,
    pub value: u64,
}

#[repr(C)]
#[derive(Clone, Copy, Default)]
pub struct CopyFault {
    pub number: u32,
    pub count: u32,
    pub values: [u64; 2],
}

#[repr(C)]
#[derive(Clone)]
pub struct ClientCall {
    pub channels: u32,
    pub channel: u32,
    pub phase: u32,
    pub at: u32,
    pub len: u32,
    pub all_abandoned: u32,
    pub patience: u64,
    pub count: u64,
    pub found: u64,
    pub block: [u64; 64],
    pub reply: [u64; 12],
}

#[repr(C)]
#[derive(Clone, Copy, Default)]
pub struct CallEnding {
    pub kind: u32,
    pub channel: u32,
    pub found: u64,
    pub outcome: u64,
    pub status: u64,
    pub handle: u64,
    pub count: u64,
    pub words: [u64; 7],
}

extern "C" {
    pub fn sb_version() -> u32;
    pub fn sb_free(handle: *mut Handle) -> u32;
    pub fn sb_policies_load(
        policies: *mut Handle,
        text: *const u8,
        byte_count: usize,
        fault: *mut TextFault,
    ) -> u32;
    pub fn sb_policies_count(policies: *mut Handle) -> usize;
    pub fn sb_policies_find(
        policies: *mut Handle,
        name: *const u8,
        byte_count: usize,
        number: *mut u32,
    ) -> u32;
    pub fn sb_policies_name(
        policies: *mut Handle,
        number: u32,
        name: *mut u8,
        room: usize,
        byte_count: *mut usize,
    ) -> u32;
    pub fn sb_judge(
        policies: *mut Handle,
        policy: u32,
        call: u64,
        arguments: *const Argument,
        argument_count: usize,
        units: *const u16,
        unit_count: usize,
        verdict: *mut CallVerdict,
    ) -> u32;
    pub fn sb_worker_new(worker: *mut Handle, channels: u32) -> u32;
    pub fn sb_worker_adopt(worker: *mut Handle, channels: u32) -> u32;
    pub fn sb_worker_plan(worker: *mut Handle, step: *mut Step) -> u32;
    pub fn sb_worker_after(worker: *mut Handle, found: u64) -> u32;
    pub fn sb_worker_decide(
        worker: *mut Handle,
        policies: *mut Handle,
        policy: u32,
        decision: *mut CopyDecision,
    ) -> u32;
    pub fn sb_worker_argument(
        worker: *mut Handle,
        number: u32,
        argument: *mut Argument,
        units: *mut u16,
        room: usize,
    ) -> u32;
    pub fn sb_worker_asked(
        worker: *mut Handle,
        number: u32,
        argument: *mut Argument,
        units: *mut u16,
        room: usize,
    ) -> u32;
    pub fn sb_worker_reply(worker: *mut Handle, answer: *const HostAnswer) -> u32;
    pub fn sb_block_check(
        count: u64,
        end: u64,
        words: *const u64,
        word_count: usize,
        fault: *mut CopyFault,
    ) -> u32;
    pub fn sb_block_encode(
        call: u64,
        mark: u64,
        arguments: *const Argument,
        argument_count: usize,
        units: *const u16,
        unit_count: usize,
        words: *mut u64,
        room: usize,
        word_count: *mut usize,
    ) -> u32;
    pub fn sb_call_begin(
        call: *mut ClientCall,
        channels: u32,
        patience: u64,
        words: *const u64,
        word_count: usize,
    ) -> u32;
    pub fn sb_call_plan(call: *const ClientCall, step: *mut Step);
    pub fn sb_call_after(call: *mut ClientCall, found: u64);
    pub fn sb_call_result(call: *const ClientCall, ending: *mut CallEnding);
    pub fn sb_string_literal(
        units: *const u16,
        unit_count: usize,
        text: *mut u8,
        room: usize,
        byte_count: *mut usize,
    ) -> u32;
    pub fn sb_pattern_literal(
        units: *const u16,
        unit_count: usize,
        text: *mut u8,
        room: usize,
        byte_count: *mut usize,
    ) -> u32;
}
