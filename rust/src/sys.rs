//! The archive's functions, as include/fuyegbo.h declares and documents them.

extern "C" {
    pub fn fuyegbo_code(
        rate: usize,
        n_tx: usize,
        code: *mut usize,
        code_len: usize,
        answer: *mut usize,
        answer_len: usize,
    ) -> usize;
    pub fn fuyegbo_work_needed(
        code: *const usize,
        code_len: usize,
        answer: *mut usize,
        answer_len: usize,
    ) -> usize;
    pub fn fuyegbo_effective_rate(
        code: *const usize,
        code_len: usize,
        rate: *mut f32,
        rate_len: usize,
        answer: *mut usize,
        answer_len: usize,
    ) -> usize;
    pub fn fuyegbo_check_members(
        code: *const usize,
        code_len: usize,
        check: usize,
        out: *mut u32,
        out_len: usize,
        answer: *mut usize,
        answer_len: usize,
    ) -> usize;
    pub fn fuyegbo_unsatisfied(
        code: *const usize,
        code_len: usize,
        word: *const u8,
        word_len: usize,
        answer: *mut usize,
        answer_len: usize,
    ) -> usize;
    pub fn fuyegbo_encode(
        code: *const usize,
        code_len: usize,
        info: *const u8,
        info_len: usize,
        out: *mut u8,
        out_len: usize,
        answer: *mut usize,
        answer_len: usize,
    ) -> usize;
    pub fn fuyegbo_start(
        code: *const usize,
        code_len: usize,
        rx: *const f32,
        rx_len: usize,
        work: *mut f32,
        work_len: usize,
        decode: *mut usize,
        decode_len: usize,
        answer: *mut usize,
        answer_len: usize,
    ) -> usize;
    pub fn fuyegbo_grant(
        decode: *mut usize,
        decode_len: usize,
        g: u16,
        work: *mut f32,
        work_len: usize,
        answer: *mut usize,
        answer_len: usize,
    ) -> usize;
    pub fn fuyegbo_read(
        decode: *const usize,
        decode_len: usize,
        work: *const f32,
        work_len: usize,
        out: *mut u8,
        out_len: usize,
        answer: *mut usize,
        answer_len: usize,
    ) -> usize;
    pub fn fuyegbo_decode(
        rate: usize,
        n_tx: usize,
        rx: *const f32,
        rx_len: usize,
        limit: u16,
        work: *mut f32,
        work_len: usize,
        out: *mut u8,
        out_len: usize,
        answer: *mut usize,
        answer_len: usize,
    ) -> usize;
    pub fn fuyegbo_information_columns(
        n_b: usize,
        percent: usize,
        answer: *mut usize,
        answer_len: usize,
    ) -> usize;
    pub fn fuyegbo_peg(
        n_b: usize,
        k_b: usize,
        rows: *mut u8,
        rows_len: usize,
        answer: *mut usize,
        answer_len: usize,
    ) -> usize;
    pub fn fuyegbo_assign_shifts(
        n_b: usize,
        k_b: usize,
        rows: *const u8,
        rows_len: usize,
        seed: u64,
        shifts: *mut u16,
        shifts_len: usize,
        answer: *mut usize,
        answer_len: usize,
    ) -> usize;
    pub fn fuyegbo_build(
        n_b: usize,
        percent: usize,
        seed: u64,
        rows: *mut u8,
        rows_len: usize,
        shifts: *mut u16,
        shifts_len: usize,
        answer: *mut usize,
        answer_len: usize,
    ) -> usize;
    pub fn fuyegbo_four_cycles(
        n_b: usize,
        k_b: usize,
        rows: *const u8,
        rows_len: usize,
        shifts: *const u16,
        shifts_len: usize,
        z: usize,
        answer: *mut usize,
        answer_len: usize,
    ) -> usize;
}
