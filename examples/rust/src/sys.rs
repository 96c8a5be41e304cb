//! The functions of nsf.h, as Rust declares them, and one of the system.

#[repr(C)]
pub struct Handle {
    pub at: *mut u8,
}

#[repr(C)]
#[derive(Clone, Copy, Default)]
pub struct Event {
    pub kind: u32,
    pub page: u32,
    pub txn: u64,
    pub slot: u16,
}

#[repr(C)]
#[derive(Clone, Copy, Debug, Default, PartialEq, Eq)]
pub struct Place {
    pub page: u32,
    pub slot: u16,
}

#[repr(C)]
#[derive(Clone, Copy)]
pub struct Reply {
    pub kind: u32,
    pub page: u32,
    pub number: u64,
    pub slot: u16,
    pub key_length: u8,
    pub body_length: u8,
    pub key: [u8; 56],
    pub body: [u8; 69],
}

impl Reply {
    pub const NONE: Reply = Reply {
        kind: 0,
        page: 0,
        number: 0,
        slot: 0,
        key_length: 0,
        body_length: 0,
        key: [0; 56],
        body: [0; 69],
    };
}

#[repr(C)]
#[derive(Clone, Copy, Default)]
pub struct Bounds {
    pub from: u32,
    pub to: u32,
    pub goes_on: u32,
    pub committed: u32,
    pub page: u32,
    pub slot: u16,
}

#[repr(C)]
#[derive(Clone, Copy, Default)]
pub struct Status {
    pub last: u64,
    pub horizon: u64,
    pub attempts: u64,
    pub rows: u64,
    pub entries: u64,
    pub marked: u64,
    pub pages: u32,
    pub life: u32,
}

/// A call that tells a pair of a range, forward or backward.
pub type Read = unsafe extern "C" fn(
    *mut Handle,
    *const Bounds,
    *const u8,
    usize,
    *const u8,
    usize,
    *const u8,
    usize,
    *mut Reply,
) -> u32;

/// What asks for the flags that a file was opened with, and the one of them that all is appended.
pub const F_GETFL: i32 = 3;
pub const O_APPEND: i32 = 0o2000;

extern "C" {
    pub fn fcntl(descriptor: i32, command: i32, ...) -> i32;
}

extern "C" {
    pub fn nsf_sectors(pages: u32, entries: u32, slots: u32) -> u64;
    pub fn nsf_create(handle: *mut Handle, line: i32, pages: u32, entries: u32, slots: u32) -> u32;
    pub fn nsf_open(handle: *mut Handle, line: i32, bytes: *const u8, length: usize) -> u32;
    pub fn nsf_save(handle: *mut Handle, first: u64, sectors: *mut [u8; 512], room: usize) -> u64;
    pub fn nsf_close(handle: *mut Handle);
    pub fn nsf_serve(
        handle: *mut Handle,
        event: *const Event,
        key: *const u8,
        key_length: usize,
        body: *const u8,
        body_length: usize,
        places: *mut Place,
        room: usize,
        reply: *mut Reply,
    ) -> u32;
    pub fn nsf_next(
        handle: *mut Handle,
        bounds: *const Bounds,
        from: *const u8,
        from_length: usize,
        to: *const u8,
        to_length: usize,
        behind: *const u8,
        behind_length: usize,
        reply: *mut Reply,
    ) -> u32;
    pub fn nsf_previous(
        handle: *mut Handle,
        bounds: *const Bounds,
        from: *const u8,
        from_length: usize,
        to: *const u8,
        to_length: usize,
        ahead: *const u8,
        ahead_length: usize,
        reply: *mut Reply,
    ) -> u32;
    pub fn nsf_get_committed(handle: *mut Handle, place: *const Place, reply: *mut Reply) -> u32;
    pub fn nsf_stat(handle: *mut Handle, status: *mut Status);
    pub fn nsf_flush(handle: *mut Handle, reply: *mut Reply) -> u32;
    pub fn nsf_image(handle: *mut Handle, reply: *mut Reply) -> u32;
    pub fn nsf_can_open(handle: *mut Handle) -> bool;
}
