//! What document 01 says, and where they change it, and, executed.

mod bank;
mod bench_cases;
mod common;
mod image;
mod instructions;
mod readings;
mod refusals;
mod reset;
mod runners;
mod sheet;
mod shortest;
mod stops;
mod store;
mod trace;
