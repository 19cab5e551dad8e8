//! FLINT's Howell form, if FLINT was there when this was built.

/// Matrices that FLINT brings to Howell form together.
pub struct Batch {
    rows: usize,
    columns: usize,
    #[cfg(flint)]
    raw: *mut Raw,
}

#[cfg(flint)]
#[repr(C)]
struct Raw {
    opaque: [u8; 0],
}

#[cfg(flint)]
extern "C" {
    fn flint_batch_new(count: usize, rows: usize, columns: usize, modulus: u64) -> *mut Raw;
    fn flint_batch_set(batch: *mut Raw, i: usize, numbers: *const u32);
    fn flint_batch_get(batch: *const Raw, i: usize, numbers: *mut u32);
    fn flint_batch_howell(batch: *mut Raw) -> u64;
    fn flint_batch_free(batch: *mut Raw);
}

#[cfg(flint)]
impl Batch {
    /// Room for so many matrices modulo 2^p; nothing where FLINT is not there. FLINT asks for as many rows as columns.
    pub fn new(count: usize, rows: usize, columns: usize, p: u32) -> Option<Batch> {
        assert!(rows >= columns);
        let raw = unsafe { flint_batch_new(count, rows, columns, 1 << p) };
        Some(Batch { rows, columns, raw })
    }

    /// Fills a matrix with rows of 17 numbers, of which it takes its first columns and, as its last, the constant.
    pub fn set(&mut self, i: usize, block: &[u32]) {
        let mut numbers = vec![0; self.rows * self.columns];
        for (to, from) in numbers.chunks_mut(self.columns).zip(block.chunks(17)) {
            to.copy_from_slice(&from[..self.columns]);
            to[self.columns - 1] = from[16];
        }
        unsafe { flint_batch_set(self.raw, i, numbers.as_ptr()) }
    }

    /// The rows of a matrix that are not zero, widened to 17 numbers again.
    pub fn get(&self, i: usize) -> Vec<Vec<u32>> {
        let mut numbers = vec![0; self.rows * self.columns];
        unsafe { flint_batch_get(self.raw, i, numbers.as_mut_ptr()) }
        let widened = |from: &[u32]| {
            let mut row = vec![0; 17];
            row[..self.columns - 1].copy_from_slice(&from[..self.columns - 1]);
            row[16] = from[self.columns - 1];
            row
        };
        numbers.chunks(self.columns).filter(|row| row.iter().any(|&a| a != 0)).map(widened).collect()
    }

    /// Brings every matrix to Howell form.
    pub fn howell(&mut self) -> u64 {
        unsafe { flint_batch_howell(self.raw) }
    }
}

#[cfg(flint)]
impl Drop for Batch {
    fn drop(&mut self) {
        unsafe { flint_batch_free(self.raw) }
    }
}

#[cfg(not(flint))]
impl Batch {
    pub fn new(_count: usize, _rows: usize, _columns: usize, _p: u32) -> Option<Batch> {
        None
    }

    pub fn set(&mut self, _i: usize, _block: &[u32]) {
        let _ = (self.rows, self.columns);
        unreachable!("there is no batch without FLINT")
    }

    pub fn get(&self, _i: usize) -> Vec<Vec<u32>> {
        unreachable!("there is no batch without FLINT")
    }

    pub fn howell(&mut self) -> u64 {
        unreachable!("there is no batch without FLINT")
    }
}
