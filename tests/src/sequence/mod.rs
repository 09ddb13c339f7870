//! Lists of calls, in which each is given the state and the buffers that the calls before it left.

pub mod log;
pub mod slot;
