//! The boundary: the two functions that the static library exports, declared as the library has them.
//!
//! Nothing checks these declarations against the library; the tests and the fuzzer call through them.

#[repr(C)]
pub struct Answer {
    pub refused: u64,
    pub length: u64,
    pub walks: u64,
}

extern "C" {
    fn vietoluyn_hide(
        sheet: *const u8,
        sheet_length: usize,
        list: *const u8,
        list_length: usize,
        out: *mut u8,
        out_length: usize,
        fates: *mut u8,
        fates_length: usize,
    ) -> Answer;

    fn vietoluyn_tidy(rows: *mut u32, rows_length: usize, eqs: u64, p: u32) -> u64;
}

pub fn hide(sheet: &[u8], list: &[u8], out: &mut [u8], fates: &mut [u8]) -> Answer {
    // Safety: each pointer comes with the length of its slice, the two that are written are lent to this call alone,
    // and the library asks nothing else of what it is given.
    unsafe {
        vietoluyn_hide(
            sheet.as_ptr(),
            sheet.len(),
            list.as_ptr(),
            list.len(),
            out.as_mut_ptr(),
            out.len(),
            fates.as_mut_ptr(),
            fates.len(),
        )
    }
}

pub fn tidy(rows: &mut [u32; 544], eqs: usize, p: u32) -> u64 {
    // Safety: the pointer comes with the length of its block, which is lent to this call alone.
    unsafe { vietoluyn_tidy(rows.as_mut_ptr(), rows.len(), eqs as u64, p) }
}
