//! Every command of the administrator's tool, and everything that can go wrong.

mod audit;
mod commands;
mod day;
mod dumps;
mod kills;
mod names;
mod pictures;
mod places;
mod progress;
mod prunes;
mod refusals;
mod second;
