//! `locks.h` for Rust.
#![allow(dead_code)]

use std::ffi::c_void;

pub const OK: u32 = 0;
pub const WAITS: u32 = 32;
pub const BLOCKING: u32 = 0;
pub const TRY: u32 = 1;
pub const NOTIFY: u32 = 2;
pub const SHARED: u32 = 1;
pub const BYPASS: u32 = 2;
pub const OWN: u32 = 4;
pub const CODE: u32 = 8;
pub const NO_QUOTA: u16 = 65535;

/// One lock of a call.
#[repr(C)]
#[derive(Clone, Copy, Default)]
pub struct LockTerms {
    pub name: [u8; 32],
    pub code: u64,
    pub flags: u32,
    pub length: u32,
    pub level: u32,
    pub group: u32,
    pub pool_size: u32,
    pub pool_amount: u32,
}

/// A grant that a call made.
#[repr(C)]
#[derive(Clone, Copy, Default)]
pub struct LockGrant {
    pub job: u32,
    pub id: u32,
}

/// A handle, for the library alone.
#[repr(C)]
struct Handle(*mut c_void);

unsafe extern "C" {
    fn locks_make(table: &mut Handle) -> u32;
    fn locks_free(table: &mut Handle);
    fn locks_enqueue(table: &mut Handle, job: u8, kind: u32, id: u32, quota: u16, terms: *const LockTerms, count: usize) -> u32;
    fn locks_dequeue(table: &mut Handle, job: u8, terms: *const LockTerms, count: usize) -> u32;
    fn locks_release(table: &mut Handle, job: u8) -> u32;
    fn locks_withdraw(table: &mut Handle, jobs: u64) -> u32;
    fn locks_grant(table: &mut Handle, i: usize, out: &mut LockGrant) -> u32;
    fn locks_waiting(table: &mut Handle, job: u8) -> u32;
    fn locks_requests(table: &mut Handle) -> usize;
}

/// A lock by its name, exclusive, of level 0.
pub fn named(name: &str) -> LockTerms {
    let mut lock = LockTerms { length: name.len().min(33) as u32, ..LockTerms::default() };
    let kept = name.len().min(32);
    lock.name[..kept].copy_from_slice(&name.as_bytes()[..kept]);
    lock
}

/// A table. The borrow checker sees to it that one call at a time is made.
pub struct Table(Handle);

// (the library's own handle is proved to be `Send`)
unsafe impl Send for Table {}

impl Table {
    /// A table without requests, if there is memory for one.
    pub fn new() -> Option<Table> {
        let mut handle = Handle(std::ptr::null_mut());
        (unsafe { locks_make(&mut handle) } == OK).then_some(Table(handle))
    }

    /// Asks for locks, all together.
    pub fn enqueue(&mut self, job: u8, kind: u32, id: u32, terms: &[LockTerms]) -> u32 {
        unsafe { locks_enqueue(&mut self.0, job, kind, id, NO_QUOTA, terms.as_ptr(), terms.len()) }
    }

    /// Gives up the job's wants of these locks.
    pub fn dequeue(&mut self, job: u8, terms: &[LockTerms]) -> u32 {
        unsafe { locks_dequeue(&mut self.0, job, terms.as_ptr(), terms.len()) }
    }

    /// Removes all requests of a job that is gone.
    pub fn release(&mut self, job: u8) -> u32 {
        unsafe { locks_release(&mut self.0, job) }
    }

    /// Removes the requests by which some jobs wait, a bit for each.
    pub fn withdraw(&mut self, jobs: u64) -> u32 {
        unsafe { locks_withdraw(&mut self.0, jobs) }
    }

    /// The grants that the last call made.
    pub fn grants(&mut self) -> Vec<LockGrant> {
        let (mut found, mut grant) = (Vec::new(), LockGrant::default());
        while unsafe { locks_grant(&mut self.0, found.len(), &mut grant) } == OK {
            found.push(grant);
        }
        found
    }

    /// Whether a job waits.
    pub fn waits(&mut self, job: u8) -> bool {
        unsafe { locks_waiting(&mut self.0, job) == WAITS }
    }

    /// How many requests there are.
    pub fn requests(&mut self) -> usize {
        unsafe { locks_requests(&mut self.0) }
    }
}

impl Drop for Table {
    fn drop(&mut self) {
        unsafe { locks_free(&mut self.0) }
    }
}
