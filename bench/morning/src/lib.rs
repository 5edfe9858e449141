//! The lines of request 2026-11, `store 256`, 10,000 updates, and 100,000 lookups behind them; and programs that take turns on them.

pub mod endless;
pub mod lines;
pub mod mix;
pub mod turns;
