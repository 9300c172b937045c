//! A program in Rust (`program`: the Rattle code as plain Rust, or the second program), called as the archive is.

#[repr(C)]
pub struct Reply {
    number: u64,
    verdict: u64,
    place: u64,
    length: u64,
}

/// # Safety
/// Each pointer is valid for its length, as the archive asks.
#[no_mangle]
pub unsafe extern "C" fn eliminate(sheet: *const u8, n: usize, result: *mut u8, r: usize, work: *mut u8, w: usize) -> Reply {
    let sheet = std::slice::from_raw_parts(sheet, n);
    let said = program::eliminate(sheet, std::slice::from_raw_parts_mut(result, r), std::slice::from_raw_parts_mut(work, w));
    Reply { number: said.number as u64, verdict: said.verdict as u64, place: said.place as u64, length: said.length as u64 }
}
