//! The proved archive, called as C calls it. Each slice lies right before a page that can't be touched, so that a byte read or written past an
//! end stops the run.

use std::ffi::c_void;

#[repr(C)]
#[derive(Clone, Copy, Debug, PartialEq, Eq)]
pub struct Reply {
    pub number: u64,
    pub verdict: u64,
    pub place: u64,
    pub length: u64,
}

/// A reply with the counts of #102: steps finished, and the most boundary terms in any step that got past answer 10.
#[repr(C)]
#[derive(Clone, Copy, Debug, PartialEq, Eq)]
pub struct Counted {
    pub number: u64,
    pub verdict: u64,
    pub place: u64,
    pub length: u64,
    pub steps: u64,
    pub terms: u64,
}

#[repr(C)]
#[derive(Clone, Copy, Debug, PartialEq, Eq)]
pub struct Tested {
    pub number: u64,
    pub verdict: u64,
    pub place: u64,
}

#[repr(C)]
#[derive(Clone, Copy, Debug, PartialEq, Eq)]
pub struct Pair(pub u64, pub u64);

extern "C" {
    fn vb_eliminate(sheet: *const u8, n: usize, result: *mut u8, r: usize, work: *mut u8, w: usize) -> Reply;
    fn vb_eliminate_in(sheet: *const u8, n: usize, result: *mut u8, r: usize, work: *mut u8, w: usize, room: *mut u8, m: usize) -> Reply;
    fn vb_count(sheet: *const u8, n: usize, result: *mut u8, r: usize, work: *mut u8, w: usize) -> Counted;
    fn vb_test(sheet: *const u8, n: usize, p0: i64, p1: i64, p2: i64, p3: i64, p4: i64, p5: i64, p6: i64, p7: i64, q: i64) -> Tested;
    fn vb_read(sheet: *const u8, n: usize) -> Pair;
    fn vb_look(sheet: *const u8, n: usize) -> Pair;
    fn mmap(at: *mut c_void, n: usize, protection: i32, flags: i32, file: i32, offset: i64) -> *mut c_void;
    fn mprotect(at: *mut c_void, n: usize, protection: i32) -> i32;
}

const PAGE: usize = 4096;
const READ_WRITE: i32 = 3;
const PRIVATE_ANONYMOUS: i32 = 0x22;

/// Room for slices that end where an inaccessible page begins.
pub struct Guarded {
    end: *mut u8,
    room: usize,
}

impl Guarded {
    pub fn new(room: usize) -> Guarded {
        let room = room.div_ceil(PAGE) * PAGE;
        unsafe {
            let start = mmap(std::ptr::null_mut(), room + PAGE, READ_WRITE, PRIVATE_ANONYMOUS, -1, 0) as *mut u8;
            assert!(start as isize != -1, "no memory");
            assert_eq!(mprotect(start.add(room) as *mut c_void, PAGE, 0), 0);
            Guarded { end: start.add(room), room }
        }
    }

    pub fn slice(&mut self, n: usize) -> &mut [u8] {
        assert!(n <= self.room);
        unsafe { std::slice::from_raw_parts_mut(self.end.sub(n), n) }
    }

    pub fn filled(&mut self, bytes: &[u8]) -> &mut [u8] {
        let slice = self.slice(bytes.len());
        slice.copy_from_slice(bytes);
        slice
    }
}

pub fn eliminate(sheet: &[u8], result: &mut [u8], work: &mut [u8]) -> Reply {
    unsafe { vb_eliminate(sheet.as_ptr(), sheet.len(), result.as_mut_ptr(), result.len(), work.as_mut_ptr(), work.len()) }
}

pub fn eliminate_in(sheet: &[u8], result: &mut [u8], work: &mut [u8], room: &mut [u8]) -> Reply {
    unsafe {
        vb_eliminate_in(sheet.as_ptr(), sheet.len(), result.as_mut_ptr(), result.len(), work.as_mut_ptr(), work.len(), room.as_mut_ptr(), room.len())
    }
}

pub fn count(sheet: &[u8], result: &mut [u8], work: &mut [u8]) -> Counted {
    unsafe { vb_count(sheet.as_ptr(), sheet.len(), result.as_mut_ptr(), result.len(), work.as_mut_ptr(), work.len()) }
}

pub fn test(sheet: &[u8], w: [i64; 9]) -> Tested {
    unsafe { vb_test(sheet.as_ptr(), sheet.len(), w[0], w[1], w[2], w[3], w[4], w[5], w[6], w[7], w[8]) }
}

pub fn read(sheet: &[u8]) -> Pair {
    unsafe { vb_read(sheet.as_ptr(), sheet.len()) }
}

pub fn look(sheet: &[u8]) -> Pair {
    unsafe { vb_look(sheet.as_ptr(), sheet.len()) }
}
