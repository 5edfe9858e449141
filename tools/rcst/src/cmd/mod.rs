//! The commands, a file each.

mod abandon;
mod apply;
mod audit;
mod check;
mod convert;
mod diff;
mod draw;
mod dump;
mod explain;
mod get;
pub mod help;
mod info;
mod life;
mod list;
mod load;
mod log;
mod new;
mod prune;
mod return_to;

use crate::fault::Fault;
use crate::line::Line;

pub struct Command {
    pub name: &'static str,
    pub usage: &'static str,
    /// In one line.
    pub does: &'static str,
    /// What `--help` says further.
    pub more: &'static str,
    pub run: fn(Line) -> Result<u8, Fault>,
}

pub const ALL: [&Command; 18] = [
    &new::COMMAND,
    &info::COMMAND,
    &check::COMMAND,
    &log::COMMAND,
    &get::COMMAND,
    &list::COMMAND,
    &diff::COMMAND,
    &life::COMMAND,
    &apply::COMMAND,
    &return_to::COMMAND,
    &abandon::COMMAND,
    &dump::COMMAND,
    &load::COMMAND,
    &draw::COMMAND,
    &prune::COMMAND,
    &convert::COMMAND,
    &audit::COMMAND,
    &explain::COMMAND,
];
