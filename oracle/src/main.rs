//! oracle: `oracle --help` lists its commands.

#[cfg(upstream)]
mod commands;

use std::process::ExitCode;

#[cfg(upstream)]
fn main() -> ExitCode {
    commands::run(std::env::args().skip(1))
}

#[cfg(not(upstream))]
fn main() -> ExitCode {
    oracle::without_upstream("oracle")
}
