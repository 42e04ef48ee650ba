//! Straight from the library, as a host in C calls it; through the table of calls there is one call more.

extern "C" {
    pub fn vdp_control_write(block: *mut u8, block_len: usize, vram: *const u8, vram_len: usize, byte: u8) -> u32;
    pub fn vdp_data_write(
        block: *mut u8,
        block_len: usize,
        vram: *mut u8,
        vram_len: usize,
        map: *mut u8,
        map_len: usize,
        byte: u8,
    ) -> u32;
    pub fn vdp_draw_line(
        block: *mut u8,
        block_len: usize,
        vram: *const u8,
        vram_len: usize,
        line: *mut u8,
        line_len: usize,
        origins: *mut u8,
        origins_len: usize,
        number: u32,
    ) -> u32;
    pub fn vdp_run_log(
        block: *mut u8,
        block_len: usize,
        vram: *mut u8,
        vram_len: usize,
        map: *mut u8,
        map_len: usize,
        line: *mut u8,
        line_len: usize,
        log: *const u8,
        log_len: usize,
        outcome: *mut u8,
        outcome_len: usize,
    ) -> u32;
}
