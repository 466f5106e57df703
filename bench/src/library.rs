//! The library's four functions, the join, the slow engine and the two for results by number, through their C interface
//! (include/pigrozd.h).

#[repr(C)]
#[derive(Clone, Copy, PartialEq, Eq, Debug, Default)]
pub struct Answer {
    pub number: u64,
    pub detail: u64,
    pub rows: u64,
    pub entries: u64,
    pub lookups: u64,
    pub comparisons: u64,
    pub visits: u64,
}

impl Answer {
    pub fn refused(number: u64, detail: usize) -> Answer {
        Answer { number, detail: detail as u64, ..Answer::default() }
    }

    /// What the slow engine answers where the join answers this.
    pub fn without_counts(&self) -> SlowAnswer {
        SlowAnswer { number: self.number, detail: self.detail, rows: self.rows }
    }
}

#[repr(C)]
#[derive(Clone, Copy, PartialEq, Eq, Debug)]
pub struct SlowAnswer {
    pub number: u64,
    pub detail: u64,
    pub rows: u64,
}

/// Of a result by its number: the row number of each table, by table number.
#[repr(C)]
#[derive(Clone, Copy, PartialEq, Eq, Debug)]
pub struct ResultAnswer {
    pub number: u64,
    pub detail: u64,
    pub rows: [u32; 16],
    pub copies: [u32; 16],
}

impl ResultAnswer {
    pub fn refused(number: u64, detail: u64) -> ResultAnswer {
        ResultAnswer { number, detail, rows: [0; 16], copies: [0; 16] }
    }
}

/// Of the number of a result by its rows.
#[repr(C)]
#[derive(Clone, Copy, PartialEq, Eq, Debug)]
pub struct NumberAnswer {
    pub number: u64,
    pub detail: u64,
    pub n: u64,
}

impl NumberAnswer {
    pub fn refused(number: u64, detail: u64) -> NumberAnswer {
        NumberAnswer { number, detail, n: 0 }
    }
}

extern "C" {
    fn pigrozd_join(
        file: *const u8,
        file_len: usize,
        scratch: *mut u32,
        scratch_len: usize,
        output: *mut u32,
        output_len: usize,
    ) -> Answer;

    fn pigrozd_slow_join(file: *const u8, file_len: usize, output: *mut u32, output_len: usize) -> SlowAnswer;

    fn pigrozd_result_at(
        file: *const u8,
        file_len: usize,
        scratch: *mut u32,
        scratch_len: usize,
        n: u64,
        row: *mut u32,
        row_len: usize,
    ) -> ResultAnswer;

    fn pigrozd_number_of(
        file: *const u8,
        file_len: usize,
        scratch: *mut u32,
        scratch_len: usize,
        rows: *const u32,
        rows_len: usize,
        copies: *const u32,
        copies_len: usize,
    ) -> NumberAnswer;
}

pub fn join(file: &[u8], scratch: &mut [u32], output: &mut [u32]) -> Answer {
    // The three parts do not overlap, and the library keeps within them.
    unsafe { pigrozd_join(file.as_ptr(), file.len(), scratch.as_mut_ptr(), scratch.len(), output.as_mut_ptr(), output.len()) }
}

pub fn slow_join(file: &[u8], output: &mut [u32]) -> SlowAnswer {
    // The two parts do not overlap, and the library keeps within them.
    unsafe { pigrozd_slow_join(file.as_ptr(), file.len(), output.as_mut_ptr(), output.len()) }
}

pub fn result_at(file: &[u8], scratch: &mut [u32], n: u64, row: &mut [u32]) -> ResultAnswer {
    // The three parts do not overlap, and the library keeps within them.
    unsafe { pigrozd_result_at(file.as_ptr(), file.len(), scratch.as_mut_ptr(), scratch.len(), n, row.as_mut_ptr(), row.len()) }
}

pub fn number_of(file: &[u8], scratch: &mut [u32], rows: &[u32]) -> NumberAnswer {
    // No file of the bench that is numbered has copies: of each row its one copy is meant.
    let copies = &[0; 17][..rows.len()];
    // The four parts do not overlap, and the library keeps within them.
    unsafe {
        pigrozd_number_of(
            file.as_ptr(),
            file.len(),
            scratch.as_mut_ptr(),
            scratch.len(),
            rows.as_ptr(),
            rows.len(),
            copies.as_ptr(),
            copies.len(),
        )
    }
}
