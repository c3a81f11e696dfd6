//! bench CALL COUNT [LESS]: the twin of crates/bench over the commit's Rust. `tools/measure calls` runs it.

#[cfg(upstream)]
mod loops;

#[cfg(upstream)]
fn main() {
    loops::run();
}

#[cfg(not(upstream))]
fn main() -> std::process::ExitCode {
    oracle::without_upstream("bench")
}
