//! The chip state and the sizes of everything lent.

pub const VRAM_BYTES: usize = 16_384;
pub const LINE_BYTES: usize = 256;
pub const LINES: usize = 192;
pub const FRAME_BYTES: usize = LINES * LINE_BYTES;
pub const MAP_BYTES: usize = VRAM_BYTES / 8;
pub const NOTE_BYTES: usize = LINES;

/// The bits each register keeps.
pub const MASKS: [u8; 8] = [0x03, 0xFB, 0x0F, 0xFF, 0x07, 0x7F, 0x07, 0xFF];

/// Status: end of active display seen.
pub const F: u8 = 0x80;
/// Status: a fifth sprite on a line.
pub const FIFTH: u8 = 0x40;
/// Status: coincidence.
pub const C: u8 = 0x20;
/// Status: the fifth sprite's number.
pub const FIFTH_NUMBER: u8 = 0x1F;

/// Everything the chip remembers besides VRAM.
#[derive(Clone, Copy, Debug, Default, PartialEq, Eq)]
pub struct State {
    pub registers: [u8; 8],
    pub address: u16,
    pub buffer: u8,
    pub waiting: Option<u8>,
    pub status: u8,
    pub redraw: bool,
    /// How many first bytes a data write, data read or status read dropped.
    pub lost: u16,
}

impl State {
    /// All zero, nothing waits, everything is to be redrawn.
    pub fn at_power_up() -> State {
        State {
            redraw: true,
            ..State::default()
        }
    }

    /// No register has a bit outside its mask and the address has 14 bits. Any
    /// count of lost first bytes will do.
    pub fn is_well_formed(&self) -> bool {
        let masks_kept = self
            .registers
            .iter()
            .zip(MASKS)
            .all(|(byte, mask)| byte & !mask == 0);
        masks_kept && usize::from(self.address) < VRAM_BYTES
    }

    /// A register as a whole number for address sums.
    pub fn register(&self, number: usize) -> usize {
        self.registers.get(number).map_or(0, |&byte| byte.into())
    }

    /// Whether a register has this bit on.
    pub fn has(&self, number: usize, bit: usize) -> bool {
        self.register(number) & bit != 0
    }

    /// The address goes up by one, round from the top to 0.
    pub fn step(&mut self) {
        self.address = if self.address >= 16_383 {
            0
        } else {
            self.address + 1
        };
    }
}

/// One VRAM byte. Accepted calls never ask beyond the end.
pub fn byte_at(vram: &[u8], at: usize) -> u8 {
    vram.get(at).copied().unwrap_or(0)
}

/// Sets one VRAM byte. Accepted calls never ask beyond the end.
pub fn put_at(vram: &mut [u8], at: usize, byte: u8) {
    if let Some(place) = vram.get_mut(at) {
        *place = byte;
    }
}

/// Whether the map says that VRAM byte was written.
pub fn map_has(map: &[u8], at: usize) -> bool {
    byte_at(map, at / 8) & (1 << (at % 8)) != 0
}

/// Says in the map that this VRAM byte was written.
pub fn map_set(map: &mut [u8], at: usize) {
    let byte = byte_at(map, at / 8);
    put_at(map, at / 8, byte | (1 << (at % 8)));
}
