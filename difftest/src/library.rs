//! The library's calls over slices, and both sides' calls as tables.

use reference::block as second;

/// include/birdcleft.h, in its order.
mod c {
    extern "C" {
        pub fn vdp_power_up(block: *mut u8, block_len: usize, vram: *mut u8, vram_len: usize) -> u32;
        pub fn vdp_control_write(block: *mut u8, block_len: usize, vram: *const u8, vram_len: usize, byte: u8) -> u32;
        pub fn vdp_data_write(
            block: *mut u8,
            block_len: usize,
            vram: *mut u8,
            vram_len: usize,
            map: *mut u8,
            map_len: usize,
            byte: u8,
        ) -> u32;
        pub fn vdp_data_read(block: *mut u8, block_len: usize, vram: *const u8, vram_len: usize) -> u32;
        pub fn vdp_status_read(block: *mut u8, block_len: usize) -> u32;
        pub fn vdp_end_of_display(block: *mut u8, block_len: usize) -> u32;
        pub fn vdp_interrupt_line(block: *const u8, block_len: usize) -> u32;
        pub fn vdp_draw_line(
            block: *mut u8,
            block_len: usize,
            vram: *const u8,
            vram_len: usize,
            line: *mut u8,
            line_len: usize,
            origins: *mut u8,
            origins_len: usize,
            number: u32,
        ) -> u32;
        pub fn vdp_point(
            block: *const u8,
            block_len: usize,
            vram: *const u8,
            vram_len: usize,
            line: u32,
            column: u32,
        ) -> u32;
        pub fn vdp_origin(
            block: *const u8,
            block_len: usize,
            vram: *const u8,
            vram_len: usize,
            line: u32,
            column: u32,
        ) -> u32;
        pub fn vdp_full_draw(
            block: *mut u8,
            block_len: usize,
            vram: *const u8,
            vram_len: usize,
            map: *mut u8,
            map_len: usize,
            frame: *mut u8,
            frame_len: usize,
            notes: *mut u8,
            notes_len: usize,
        ) -> u32;
        pub fn vdp_refresh(
            block: *mut u8,
            block_len: usize,
            vram: *const u8,
            vram_len: usize,
            map: *mut u8,
            map_len: usize,
            frame: *mut u8,
            frame_len: usize,
            notes: *mut u8,
            notes_len: usize,
        ) -> u32;
        pub fn vdp_reset(block: *mut u8, block_len: usize) -> u32;
        pub fn vdp_read_snapshot(
            block: *mut u8,
            block_len: usize,
            vram: *mut u8,
            vram_len: usize,
            snapshot: *const u8,
            snapshot_len: usize,
        ) -> u32;
        pub fn vdp_write_snapshot(
            block: *const u8,
            block_len: usize,
            vram: *const u8,
            vram_len: usize,
            snapshot: *mut u8,
            snapshot_len: usize,
        ) -> u32;
        pub fn vdp_run_log(
            block: *mut u8,
            block_len: usize,
            vram: *mut u8,
            vram_len: usize,
            map: *mut u8,
            map_len: usize,
            line: *mut u8,
            line_len: usize,
            log: *const u8,
            log_len: usize,
            outcome: *mut u8,
            outcome_len: usize,
        ) -> u32;
        pub fn vdp_read_log(log: *const u8, log_len: usize, records: *mut u8, records_len: usize) -> u32;
        pub fn vdp_write_log(records: *const u8, records_len: usize, log: *mut u8, log_len: usize) -> u32;
    }
}

/// A draw of a line: block, VRAM, line and origins, and its number.
pub type DrawLine = fn(&mut [u8], &[u8], &mut [u8], &mut [u8], u32) -> u32;

/// A draw of a whole picture: block, VRAM, map, frame and notes.
pub type Draw = fn(&mut [u8], &[u8], &mut [u8], &mut [u8], &mut [u8]) -> u32;

/// A run of a log: block, VRAM, map, line, log and outcome.
pub type RunLog = fn(&mut [u8], &mut [u8], &mut [u8], &mut [u8], &[u8], &mut [u8]) -> u32;

/// One side's calls.
pub struct Calls {
    pub power_up: fn(&mut [u8], &mut [u8]) -> u32,
    pub control_write: fn(&mut [u8], &[u8], u8) -> u32,
    pub data_write: fn(&mut [u8], &mut [u8], &mut [u8], u8) -> u32,
    pub data_read: fn(&mut [u8], &[u8]) -> u32,
    pub status_read: fn(&mut [u8]) -> u32,
    pub end_of_display: fn(&mut [u8]) -> u32,
    pub interrupt_line: fn(&[u8]) -> u32,
    pub draw_line: DrawLine,
    /// Only reads the block. A planted fault of the reference writes to it.
    pub point: fn(&mut [u8], &[u8], u32, u32) -> u32,
    pub origin: fn(&[u8], &[u8], u32, u32) -> u32,
    pub full_draw: Draw,
    pub refresh: Draw,
    pub reset: fn(&mut [u8]) -> u32,
    pub read_snapshot: fn(&mut [u8], &mut [u8], &[u8]) -> u32,
    pub write_snapshot: fn(&[u8], &[u8], &mut [u8]) -> u32,
    pub run_log: RunLog,
    pub read_log: fn(&[u8], &mut [u8]) -> u32,
    pub write_log: fn(&[u8], &mut [u8]) -> u32,
}

pub const REFERENCE: Calls = Calls {
    power_up: second::vdp_power_up,
    control_write: second::vdp_control_write,
    data_write: second::vdp_data_write,
    data_read: second::vdp_data_read,
    status_read: second::vdp_status_read,
    end_of_display: second::vdp_end_of_display,
    interrupt_line: second::vdp_interrupt_line,
    draw_line: second::vdp_draw_line,
    point: second::vdp_point,
    origin: second::vdp_origin,
    full_draw: second::vdp_full_draw,
    refresh: second::vdp_refresh,
    reset: second::vdp_reset,
    read_snapshot: second::vdp_read_snapshot,
    write_snapshot: second::vdp_write_snapshot,
    run_log: second::vdp_run_log,
    read_log: second::vdp_read_log,
    write_log: second::vdp_write_log,
};

pub const LIBRARY: Calls = Calls {
    power_up,
    control_write,
    data_write,
    data_read,
    status_read,
    end_of_display,
    interrupt_line,
    draw_line,
    point,
    origin,
    full_draw,
    refresh,
    reset,
    read_snapshot,
    write_snapshot,
    run_log,
    read_log,
    write_log,
};

// Safety, for every call below: each pointer comes with its slice's length, and borrowing keeps
// the slices of one call apart.

fn power_up(block: &mut [u8], vram: &mut [u8]) -> u32 {
    unsafe { c::vdp_power_up(block.as_mut_ptr(), block.len(), vram.as_mut_ptr(), vram.len()) }
}

fn control_write(block: &mut [u8], vram: &[u8], byte: u8) -> u32 {
    unsafe { c::vdp_control_write(block.as_mut_ptr(), block.len(), vram.as_ptr(), vram.len(), byte) }
}

fn data_write(block: &mut [u8], vram: &mut [u8], map: &mut [u8], byte: u8) -> u32 {
    unsafe {
        c::vdp_data_write(
            block.as_mut_ptr(),
            block.len(),
            vram.as_mut_ptr(),
            vram.len(),
            map.as_mut_ptr(),
            map.len(),
            byte,
        )
    }
}

fn data_read(block: &mut [u8], vram: &[u8]) -> u32 {
    unsafe { c::vdp_data_read(block.as_mut_ptr(), block.len(), vram.as_ptr(), vram.len()) }
}

fn status_read(block: &mut [u8]) -> u32 {
    unsafe { c::vdp_status_read(block.as_mut_ptr(), block.len()) }
}

fn end_of_display(block: &mut [u8]) -> u32 {
    unsafe { c::vdp_end_of_display(block.as_mut_ptr(), block.len()) }
}

fn interrupt_line(block: &[u8]) -> u32 {
    unsafe { c::vdp_interrupt_line(block.as_ptr(), block.len()) }
}

fn draw_line(block: &mut [u8], vram: &[u8], line: &mut [u8], origins: &mut [u8], number: u32) -> u32 {
    unsafe {
        c::vdp_draw_line(
            block.as_mut_ptr(),
            block.len(),
            vram.as_ptr(),
            vram.len(),
            line.as_mut_ptr(),
            line.len(),
            origins.as_mut_ptr(),
            origins.len(),
            number,
        )
    }
}

fn point(block: &mut [u8], vram: &[u8], line: u32, column: u32) -> u32 {
    unsafe { c::vdp_point(block.as_ptr(), block.len(), vram.as_ptr(), vram.len(), line, column) }
}

fn origin(block: &[u8], vram: &[u8], line: u32, column: u32) -> u32 {
    unsafe { c::vdp_origin(block.as_ptr(), block.len(), vram.as_ptr(), vram.len(), line, column) }
}

fn full_draw(block: &mut [u8], vram: &[u8], map: &mut [u8], frame: &mut [u8], notes: &mut [u8]) -> u32 {
    unsafe {
        c::vdp_full_draw(
            block.as_mut_ptr(),
            block.len(),
            vram.as_ptr(),
            vram.len(),
            map.as_mut_ptr(),
            map.len(),
            frame.as_mut_ptr(),
            frame.len(),
            notes.as_mut_ptr(),
            notes.len(),
        )
    }
}

fn refresh(block: &mut [u8], vram: &[u8], map: &mut [u8], frame: &mut [u8], notes: &mut [u8]) -> u32 {
    unsafe {
        c::vdp_refresh(
            block.as_mut_ptr(),
            block.len(),
            vram.as_ptr(),
            vram.len(),
            map.as_mut_ptr(),
            map.len(),
            frame.as_mut_ptr(),
            frame.len(),
            notes.as_mut_ptr(),
            notes.len(),
        )
    }
}

fn reset(block: &mut [u8]) -> u32 {
    unsafe { c::vdp_reset(block.as_mut_ptr(), block.len()) }
}

fn read_snapshot(block: &mut [u8], vram: &mut [u8], snapshot: &[u8]) -> u32 {
    unsafe {
        c::vdp_read_snapshot(
            block.as_mut_ptr(),
            block.len(),
            vram.as_mut_ptr(),
            vram.len(),
            snapshot.as_ptr(),
            snapshot.len(),
        )
    }
}

fn write_snapshot(block: &[u8], vram: &[u8], snapshot: &mut [u8]) -> u32 {
    unsafe {
        c::vdp_write_snapshot(
            block.as_ptr(),
            block.len(),
            vram.as_ptr(),
            vram.len(),
            snapshot.as_mut_ptr(),
            snapshot.len(),
        )
    }
}

fn run_log(block: &mut [u8], vram: &mut [u8], map: &mut [u8], line: &mut [u8], log: &[u8], outcome: &mut [u8]) -> u32 {
    unsafe {
        c::vdp_run_log(
            block.as_mut_ptr(),
            block.len(),
            vram.as_mut_ptr(),
            vram.len(),
            map.as_mut_ptr(),
            map.len(),
            line.as_mut_ptr(),
            line.len(),
            log.as_ptr(),
            log.len(),
            outcome.as_mut_ptr(),
            outcome.len(),
        )
    }
}

fn read_log(log: &[u8], records: &mut [u8]) -> u32 {
    unsafe { c::vdp_read_log(log.as_ptr(), log.len(), records.as_mut_ptr(), records.len()) }
}

fn write_log(records: &[u8], log: &mut [u8]) -> u32 {
    unsafe { c::vdp_write_log(records.as_ptr(), records.len(), log.as_mut_ptr(), log.len()) }
}
