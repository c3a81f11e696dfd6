//! The commit's own Rust, and what compares the port with it. Without the commit's source (build.rs) there is nothing to compare with, and the library has
//! only what a program then says.

#[cfg(upstream)]
extern crate alloc;

#[cfg(upstream)]
pub mod cases;
#[cfg(upstream)]
pub mod differences;
#[cfg(upstream)]
pub mod histories;
#[cfg(upstream)]
pub mod records;
#[cfg(upstream)]
pub mod script;

/// The commit's seven files, as build.rs copied them.
#[cfg(upstream)]
#[allow(dead_code, clippy::all)]
pub mod proto {
    include!(concat!(env!("OUT_DIR"), "/proto.rs"));
}

/// Ends a program that was built without the commit's source.
#[cfg(not(upstream))]
pub fn without_upstream(program: &str) -> std::process::ExitCode {
    eprintln!(
        "{program}: built without upstream's source: set FIPS_SRC to a checkout of github.com/jmcorgan/fips at 6aa80504ba and build again"
    );
    std::process::ExitCode::FAILURE
}
