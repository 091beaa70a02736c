//! Counts the calls of do_unlinkat of each user in a map, and of all users in a variable.
//!
//! rustc comes without a core for BPF, so this crate has none. Its module `language` holds what the
//! compiler needs of one. tests/compile_objects compiles this file.
#![feature(auto_traits, intrinsics, lang_items, no_core, rustc_attrs)]
#![allow(internal_features)]
#![no_core]

use language::Option::{self, Some};
use language::{transmute, volatile_load};

const HASH: usize = 1;
const ARRAY: u32 = 2;

/// The words that define a map of the section `maps`.
#[repr(C)]
pub struct Words {
    kind: u32,
    key_size: u32,
    value_size: u32,
    max_entries: u32,
    flags: u32,
}

/// The types that define a map of the section `.maps`: a word is the length of an array, a type the
/// target of a pointer.
#[repr(C)]
pub struct CountByUser {
    r#type: *const [i32; HASH],
    key: *const u32,
    value: *const u64,
    max_entries: *const [i32; 256],
}

/// The calls that count, by user.
#[no_mangle]
#[link_section = ".maps"]
static COUNTS: CountByUser = CountByUser {
    r#type: 0 as *const _,
    key: 0 as *const _,
    value: 0 as *const _,
    max_entries: 0 as *const _,
};

/// The number of the latest call.
#[no_mangle]
#[link_section = "maps"]
static LATEST: Words = Words {
    kind: ARRAY,
    key_size: 4,
    value_size: 8,
    max_entries: 1,
    flags: 0,
};

/// How much a call counts. A loader may set another number.
#[no_mangle]
static STEP: u64 = 1;

/// The calls of all users that count.
#[no_mangle]
static mut TOTAL: u64 = 0;

/// The number of the next call.
#[no_mangle]
static mut NEXT: u64 = 1;

#[no_mangle]
#[link_section = "license"]
static LICENSE: [u8; 4] = [b'G', b'P', b'L', 0];

// Helpers, by their numbers in include/uapi/linux/bpf.h.

#[inline(always)]
fn map_lookup_elem<Map>(map: &Map, key: &u32) -> Option<&'static mut u64> {
    let helper: extern "C" fn(&Map, &u32) -> Option<&'static mut u64> =
        unsafe { transmute(1usize) };
    helper(map, key)
}

#[inline(always)]
fn map_update_elem<Map>(map: &Map, key: &u32, value: &u64, flags: u64) -> i64 {
    let helper: extern "C" fn(&Map, &u32, &u64, u64) -> i64 = unsafe { transmute(2usize) };
    helper(map, key, value, flags)
}

#[inline(always)]
fn get_current_uid_gid() -> u64 {
    let helper: extern "C" fn() -> u64 = unsafe { transmute(15usize) };
    helper()
}

/// How much a call of a user counts: one of root doesn't.
#[no_mangle]
#[inline(never)]
pub extern "C" fn weight(user: u32) -> u64 {
    match user {
        0 => 0,
        _ => unsafe { volatile_load(&raw const STEP) },
    }
}

/// Adds a call of a user to a count.
#[inline(never)]
fn raise(count: &mut u64, user: u32) {
    *count = *count + weight(user);
}

#[no_mangle]
#[link_section = "kprobe/do_unlinkat"]
pub extern "C" fn count_unlinks(_context: *const u8) -> i32 {
    let user = get_current_uid_gid() as u32;
    if let Some(count) = map_lookup_elem(&COUNTS, &user) {
        raise(count, user);
    } else {
        map_update_elem(&COUNTS, &user, &weight(user), 0);
    }
    raise(unsafe { &mut *(&raw mut TOTAL) }, user);
    0
}

#[no_mangle]
#[link_section = "tracepoint/syscalls/sys_enter_unlinkat"]
pub extern "C" fn number_unlinks(_context: *const u8) -> i32 {
    if let Some(latest) = map_lookup_elem(&LATEST, &0) {
        unsafe {
            *latest = NEXT;
            NEXT = NEXT + 1;
        }
    }
    0
}

/// Lang items and intrinsics: what a core would hold.
#[allow(dead_code)]
mod language {
    #[lang = "pointee_sized"]
    pub trait PointeeSized {}
    #[lang = "meta_sized"]
    pub trait MetaSized: PointeeSized {}
    #[lang = "sized"]
    pub trait Sized: MetaSized {}
    #[lang = "destruct"]
    pub trait Destruct: PointeeSized {}
    #[lang = "freeze"]
    unsafe auto trait Freeze {}
    #[lang = "sync"]
    pub unsafe auto trait Sync {}
    #[lang = "copy"]
    pub trait Copy {}

    impl Copy for u32 {}
    impl Copy for u64 {}

    #[lang = "add"]
    pub trait Add<Right = Self> {
        type Output;
        fn add(self, right: Right) -> Self::Output;
    }

    impl Add for u64 {
        type Output = u64;
        fn add(self, right: u64) -> u64 {
            self + right
        }
    }

    pub enum Option<T> {
        None,
        Some(T),
    }

    #[lang = "drop_in_place"]
    unsafe fn drop_in_place<T: PointeeSized>(_place: *mut T) {}

    #[rustc_intrinsic]
    pub const unsafe fn transmute<From, To>(from: From) -> To;
    #[rustc_intrinsic]
    pub unsafe fn volatile_load<T>(from: *const T) -> T;
}
