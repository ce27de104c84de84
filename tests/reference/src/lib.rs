//! A reference interpreter of the uPD546 as document 01 defines it: one machine cycle after the
//! other, on a state that is changed in place. `waiting`, `call`, `load`, `store`, `bank` and `shortest` are requests,
//! of document 02; stand where they change document 01. `asking`, `case`, `codes`, `draw`, `kinds`,
//! `maker`, `mnemonics`, `sheets`, `show` and `walk` are no part of either: what the programs that make trials share, and the tests.

pub mod asking;
pub mod bank;
pub mod call;
pub mod case;
pub mod codes;
pub mod draw;
mod image;
mod instructions;
pub mod kinds;
pub mod lent;
pub mod load;
pub mod log;
mod machine;
pub mod maker;
mod mnemonics;
pub mod numbers;
mod ports;
mod runners;
mod schedule;
mod sheet;
pub mod sheets;
pub mod shortest;
mod show;
pub mod store;
mod timer;
mod trace;

pub mod waiting;
mod walk;

pub use image::{restore, save, Version};
pub use machine::State;
pub use ports::ports;
pub use runners::{run, run_observed, Answer, Coverage, Observer, Runner};
pub use sheet::Sheet;
pub use trace::trace;
pub use walk::walk;
