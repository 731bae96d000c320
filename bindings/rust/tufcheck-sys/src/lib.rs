//! The C interface of libtufcheck, as its header `tufcheck.h` declares it.
//!
//! A pointer may be null only where its length or count is 0, and no room may overlap another room,
//! its own answer or any memory of the job. `size` is the size of its struct. A call needs a stack of
//! 256 KB.
#![no_std]

use core::ffi::c_char;

/// Bytes of the caller.
#[repr(C)]
#[derive(Clone, Copy, Debug)]
pub struct Bytes {
    pub data: *const u8,
    pub len: usize,
}

/// A file in memory.
#[repr(C)]
#[derive(Clone, Copy, Debug)]
pub struct File {
    pub name: Bytes,
    pub bytes: Bytes,
}

/// A target file by its length and digests. `has_sha256` is 0 if that digest isn't given.
#[repr(C)]
#[derive(Clone, Copy, Debug)]
pub struct Digests {
    pub name: Bytes,
    pub length: u64,
    pub has_sha256: u8,
    pub has_sha512: u8,
    pub sha256: [u8; 32],
    pub sha512: [u8; 64],
}

/// The input of a call.
#[repr(C)]
#[derive(Clone, Copy, Debug)]
pub struct Job {
    pub size: usize,
    pub state: Bytes,
    pub metadata: *const File,
    pub metadata_count: usize,
    pub targets: *const File,
    pub target_count: usize,
    pub digests: *const Digests,
    pub digest_count: usize,
    pub wanted: *const Bytes,
    pub wanted_count: usize,
    pub moment: u64,
    pub limit: usize,
}

/// How a cycle ended, and how much there is in each room, or is needed.
#[repr(C)]
#[derive(Clone, Copy, Debug, Default)]
pub struct Summary {
    pub end: u32,
    pub fault: u32,
    pub root_version: u64,
    pub state_len: usize,
    pub verdict_count: usize,
    pub role_count: usize,
    pub name_len: usize,
    pub reserved: [u64; 4],
}

/// The verdict of a wanted path.
#[repr(C)]
#[derive(Clone, Copy, Debug, Default)]
pub struct Verdict {
    pub kind: u32,
    pub fault: u32,
    pub length: u64,
    pub role_at: usize,
    pub role_len: usize,
    pub file_at: usize,
    pub source: u32,
    pub reserved: [u32; 5],
}

/// A delegated role that was accepted.
#[repr(C)]
#[derive(Clone, Copy, Debug, Default)]
pub struct Role {
    pub version: u64,
    pub name_at: usize,
    pub name_len: usize,
    pub reserved: [u64; 2],
}

/// The rooms for the outcome of a verification.
#[repr(C)]
#[derive(Debug)]
pub struct Answer {
    pub size: usize,
    pub state: *mut u8,
    pub state_room: usize,
    pub verdicts: *mut Verdict,
    pub verdict_room: usize,
    pub roles: *mut Role,
    pub role_room: usize,
    pub names: *mut u8,
    pub name_room: usize,
    pub summary: Summary,
}

/// What roles list of a wanted path.
#[repr(C)]
#[derive(Clone, Copy, Debug)]
pub struct Listed {
    pub kind: u32,
    pub fault: u32,
    pub length: u64,
    pub role_at: usize,
    pub role_len: usize,
    pub name_at: usize,
    pub name_len: usize,
    pub has_sha256: u8,
    pub has_sha512: u8,
    pub sha256: [u8; 32],
    pub sha512: [u8; 64],
    pub reserved: [u8; 30],
}

/// The rooms for a listing.
#[repr(C)]
#[derive(Debug)]
pub struct Listing {
    pub size: usize,
    pub state: *mut u8,
    pub state_room: usize,
    pub rows: *mut Listed,
    pub row_room: usize,
    pub names: *mut u8,
    pub name_room: usize,
    pub summary: Summary,
}

/// A file to fetch.
#[repr(C)]
#[derive(Clone, Copy, Debug, Default)]
pub struct Need {
    pub place: u32,
    pub optional: u8,
    pub most: u64,
    pub name_at: usize,
    pub name_len: usize,
    pub reserved: [u64; 2],
}

/// The rooms for the files to fetch.
#[repr(C)]
#[derive(Debug)]
pub struct Needs {
    pub size: usize,
    pub rows: *mut Need,
    pub row_room: usize,
    pub names: *mut u8,
    pub name_room: usize,
    pub summary: Summary,
}

/// A file that a state trusts. `version` is 0 if no such file is trusted.
#[repr(C)]
#[derive(Clone, Copy, Debug, Default)]
pub struct TrustedFile {
    pub version: u64,
    pub expires: i64,
    pub reserved: [u64; 2],
}

/// What a state trusts.
#[repr(C)]
#[derive(Clone, Copy, Debug, Default)]
pub struct Trusted {
    pub size: usize,
    pub root: TrustedFile,
    pub timestamp: TrustedFile,
    pub snapshot: TrustedFile,
    pub targets: TrustedFile,
}

extern "C" {
    pub fn tufcheck_version() -> u32;
    pub fn tufcheck_text(number: i32) -> *const c_char;
    pub fn tufcheck_first(
        root: *const u8,
        root_len: usize,
        state: *mut u8,
        state_room: usize,
        len: *mut usize,
    ) -> i32;
    pub fn tufcheck_show(state: *const u8, state_len: usize, trusted: *mut Trusted) -> i32;
    pub fn tufcheck_next(job: *const Job, needs: *mut Needs) -> i32;
    pub fn tufcheck_list(job: *const Job, listing: *mut Listing) -> i32;
    pub fn tufcheck_verify(job: *const Job, answer: *mut Answer) -> i32;
    pub fn tufcheck_lms_verify(
        key: *const u8,
        key_len: usize,
        message: *const u8,
        message_len: usize,
        signature: *const u8,
        signature_len: usize,
    ) -> i32;
}

/// Checks that the structs have the layout of the header, as `layout.c` does for it: the crate
/// compiles only if each field is where the library has it.
mod layout {
    use super::*;
    use core::mem::{offset_of, size_of};

    /// Compiles only if the struct has the size, and its fields, in order, are at these places.
    macro_rules! layout {
        ($name:ident, $size:literal: $($field:ident $at:literal),*) => {
            const _: () = {
                assert!(size_of::<$name>() == $size);
                $(assert!(offset_of!($name, $field) == $at);)*
            };
        };
    }

    layout!(Bytes, 16: data 0, len 8);
    layout!(File, 32: name 0, bytes 16);
    layout!(Digests, 128: name 0, length 16, has_sha256 24, has_sha512 25, sha256 26, sha512 58);
    layout!(Job, 104: size 0, state 8, metadata 24, metadata_count 32, targets 40, target_count 48,
        digests 56, digest_count 64, wanted 72, wanted_count 80, moment 88, limit 96);
    layout!(Summary, 80: end 0, fault 4, root_version 8, state_len 16, verdict_count 24,
        role_count 32, name_len 40, reserved 48);
    layout!(Verdict, 64: kind 0, fault 4, length 8, role_at 16, role_len 24, file_at 32, source 40,
        reserved 44);
    layout!(Role, 40: version 0, name_at 8, name_len 16, reserved 24);
    layout!(Answer, 152: size 0, state 8, state_room 16, verdicts 24, verdict_room 32, roles 40,
        role_room 48, names 56, name_room 64, summary 72);
    layout!(Listed, 176: kind 0, fault 4, length 8, role_at 16, role_len 24, name_at 32,
        name_len 40, has_sha256 48, has_sha512 49, sha256 50, sha512 82, reserved 146);
    layout!(Listing, 136: size 0, state 8, state_room 16, rows 24, row_room 32, names 40,
        name_room 48, summary 56);
    layout!(Need, 48: place 0, optional 4, most 8, name_at 16, name_len 24, reserved 32);
    layout!(Needs, 120: size 0, rows 8, row_room 16, names 24, name_room 32, summary 40);
    layout!(TrustedFile, 32: version 0, expires 8, reserved 16);
    layout!(Trusted, 136: size 0, root 8, timestamp 40, snapshot 72, targets 104);
}
