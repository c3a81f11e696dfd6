//! decoded CALL COUNT [LESS [SHORT]]: the loop over payloads whose length is read from memory in each turn. `tools/measure calls` runs it.

#[cfg(upstream)]
mod loops;

#[cfg(upstream)]
fn main() {
    loops::run();
}

#[cfg(not(upstream))]
fn main() -> std::process::ExitCode {
    oracle::without_upstream("decoded")
}
