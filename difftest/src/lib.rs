//! Compares the library with the reference on many states and lists of calls.

pub mod calls;
pub mod library;
pub mod lists;
pub mod logs;
pub mod meetings;
pub mod points;
pub mod random;
pub mod refreshes;
pub mod refusals;
pub mod replay;
pub mod scenes;
pub mod show;
pub mod shrink;
