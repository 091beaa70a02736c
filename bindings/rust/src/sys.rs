//! The functions of `include/morvezin.h`.

use std::ffi::c_void;

pub const OK: i32 = 0;
pub const REFUSED: i32 = 1;
pub const INVALID_SETTINGS: i32 = 2;
pub const INVALID_TYPES: i32 = 3;
pub const OUT_OF_MEMORY: i32 = 4;
pub const FAILS: i32 = 5;

#[repr(C)]
#[derive(Clone, Copy)]
pub struct Bytes {
    pub data: *const u8,
    pub len: usize,
}

impl From<&[u8]> for Bytes {
    fn from(bytes: &[u8]) -> Bytes {
        Bytes {
            data: bytes.as_ptr(),
            len: bytes.len(),
        }
    }
}

#[repr(C)]
pub struct Types {
    pub table: Bytes,
    pub is_big_endian: bool,
}

#[repr(C)]
pub struct Inputs {
    pub object: Bytes,
    pub types: *const Types,
    pub types_len: usize,
    pub symbols: Bytes,
    pub settings: Bytes,
    pub rewrite_first: bool,
    pub number_maps: bool,
}

#[repr(C)]
pub struct Answer {
    pub text: Bytes,
    pub status: i32,
    pub kind: i32,
}

pub type Call = unsafe extern "C" fn(*const Inputs, *mut Answer);

unsafe extern "C" {
    pub fn morvezin_prepare(inputs: *const Inputs, answer: *mut Answer);
    pub fn morvezin_check(inputs: *const Inputs, answer: *mut Answer);
    pub fn morvezin_code(inputs: *const Inputs, answer: *mut Answer);
    pub safe fn morvezin_version() -> u32;
    pub fn free(at: *mut c_void);
}
