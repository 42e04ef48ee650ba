//! A slow, literal model of the TMS9918A, written from document 01 and the
//! change requests alone.
//! It is there to be compared with, not to be used.
#![forbid(unsafe_code)]

pub mod block;
pub mod faults;
pub mod frame;
pub mod line;
pub mod log;
pub mod pixel;
pub mod point;
pub mod ports;
pub mod refusal;
pub mod replay;
pub mod show;
pub mod snapshot;
mod sprites;
pub mod state;
pub mod tables;

pub use frame::{draw_line, full_draw, refresh};
pub use log::{read_log, run_log, write_log};
pub use point::{origin, point};
pub use ports::{
    control_write, data_read, data_write, end_of_display, interrupt_line, power_up, reset,
    status_read,
};
pub use refusal::Answer;
pub use replay::replay;
pub use show::show;
pub use snapshot::{read_snapshot, write_snapshot};
pub use state::State;
