//! Links libsiwolkert.a, which tools/archive makes. RATTLE_LIBS names its folder, else target/staticlib at the top of the repository.
//! Where oracle's build script finds upstream's source, the tests that compare with it are compiled too, by `cfg(upstream)`.

use std::path::{Path, PathBuf};
use std::{env, process};

fn archive() {
    println!("cargo::rerun-if-env-changed=RATTLE_LIBS");
    let dir = match env::var_os("RATTLE_LIBS") {
        Some(dir) => PathBuf::from(dir),
        None => Path::new(env!("CARGO_MANIFEST_DIR")).join("../target/staticlib"),
    };
    let archive = dir.join("libsiwolkert.a");
    if !archive.exists() {
        eprintln!("siwolkert: {} is missing.", archive.display());
        eprintln!("Run tools/archive at the top of the repository, or name the archive's folder in RATTLE_LIBS.");
        process::exit(1);
    }
    println!("cargo::rerun-if-changed={}", archive.display());
    println!("cargo::rustc-link-search=native={}", dir.display());
    println!("cargo::rustc-link-lib=static=siwolkert");
}

/// Looks where oracle's build script does.
fn upstream() {
    println!("cargo::rustc-check-cfg=cfg(upstream)");
    // built for a crate that depends on it: no test of this one is run
    if option_env!("CARGO_PRIMARY_PACKAGE").is_none() {
        return;
    }
    println!("cargo::rerun-if-env-changed=FIPS_SRC");
    let source = match env::var_os("FIPS_SRC") {
        Some(dir) => PathBuf::from(dir),
        None => Path::new(env!("CARGO_MANIFEST_DIR")).join("../../shared/docs/src"),
    };
    let file = source.join("core/src/proto/codec.rs");
    println!("cargo::rerun-if-changed={}", file.display());
    if file.exists() {
        println!("cargo::rustc-cfg=upstream");
    } else {
        println!("cargo::warning=tests against upstream left out: set FIPS_SRC to a checkout of github.com/jmcorgan/fips at 6aa80504ba");
    }
}

fn main() {
    archive();
    upstream();
}
