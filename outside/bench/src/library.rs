//! The library, if this was built with it.

pub const PRESENT: bool = cfg!(feature = "library");

#[cfg(feature = "library")]
pub fn tidy(rows: &mut [u32; 544], eqs: usize, p: u32) -> usize {
    vietoluyn::tidy(rows, eqs, p).expect("the systems keep the limits")
}

#[cfg(feature = "library")]
pub fn hide(sheet: &[u8], list: &[u8], out: &mut [u8], fates: &mut [u8]) -> usize {
    vietoluyn::hide(sheet, list, out, fates).map_or(0, |accepted| accepted.length)
}

#[cfg(not(feature = "library"))]
pub fn tidy(_rows: &mut [u32; 544], _eqs: usize, _p: u32) -> usize {
    unreachable!("this was built without the library")
}

#[cfg(not(feature = "library"))]
pub fn hide(_sheet: &[u8], _list: &[u8], _out: &mut [u8], _fates: &mut [u8]) -> usize {
    unreachable!("this was built without the library")
}
