//! Copies the commit's seven files, unchanged, and appends to a copy the module of access/ that reads and sets its private fields.
//! The files come from FIPS_SRC, else from the folder `shared/docs/src` beside the repository. Where they are found `cfg(upstream)` is set; where they
//! are not, the library is built without what needs them, and each program says what it lacks.

use std::path::{Path, PathBuf};
use std::{env, fs, process};

/// The files below core/src/proto, in the order of the port.
const FILES: [&str; 7] = [
    "codec.rs",
    "mmp/limits.rs",
    "mmp/algorithms.rs",
    "mmp/wire.rs",
    "mmp/sender.rs",
    "mmp/receiver.rs",
    "mmp/metrics.rs",
];

/// The commit's `proto` and `proto::mmp`, as far as the seven files name them. `{dir}` is where the copies stand.
const PROTO: &str = r#"
#[derive(Debug, Clone, PartialEq, Eq)]
pub enum Error {
    MessageTooShort { expected: usize, got: usize },
}

#[path = "{dir}/codec.rs"]
pub mod codec;

pub mod mmp {
    pub use algorithms::*;
    pub use limits::*;

    #[path = "{dir}/mmp/algorithms.rs"]
    pub mod algorithms;
    #[path = "{dir}/mmp/limits.rs"]
    pub mod limits;
    #[path = "{dir}/mmp/metrics.rs"]
    pub mod metrics;
    #[path = "{dir}/mmp/receiver.rs"]
    pub mod receiver;
    #[path = "{dir}/mmp/sender.rs"]
    pub mod sender;
    #[path = "{dir}/mmp/wire.rs"]
    pub mod wire;
}
"#;

fn source() -> PathBuf {
    println!("cargo::rerun-if-env-changed=FIPS_SRC");
    match env::var_os("FIPS_SRC") {
        Some(dir) => PathBuf::from(dir),
        None => Path::new(env!("CARGO_MANIFEST_DIR")).join("../../shared/docs/src"),
    }
}

fn copy(from: &Path, access: &Path, to: &Path) {
    println!("cargo::rerun-if-changed={}", from.display());
    println!("cargo::rerun-if-changed={}", access.display());
    let Ok(mut text) = fs::read_to_string(from) else {
        eprintln!("oracle: cannot read {}: FIPS_SRC has a part of the source only", from.display());
        process::exit(1);
    };
    if access.exists() {
        text.push_str(&fs::read_to_string(access).expect("a file of access/ is readable"));
    }
    fs::create_dir_all(to.parent().expect("a copy stands in a folder")).expect("OUT_DIR is writable");
    fs::write(to, text).expect("OUT_DIR is writable");
}

fn main() {
    println!("cargo::rustc-check-cfg=cfg(upstream)");
    let proto = source().join("core/src/proto");
    println!("cargo::rerun-if-changed={}", proto.join(FILES[0]).display());
    if !proto.join(FILES[0]).exists() {
        return;
    }
    println!("cargo::rustc-cfg=upstream");
    let access = Path::new(env!("CARGO_MANIFEST_DIR")).join("access");
    let out = PathBuf::from(env::var_os("OUT_DIR").expect("cargo sets OUT_DIR"));
    for file in FILES {
        copy(&proto.join(file), &access.join(file), &out.join("proto").join(file));
    }
    let dir = out.join("proto");
    let text = PROTO.replace("{dir}", dir.to_str().expect("OUT_DIR is UTF-8"));
    fs::write(out.join("proto.rs"), text).expect("OUT_DIR is writable");
}
