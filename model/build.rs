//! Says where the proved library is, its two archives: in the folder that QUORUM_LIB
//! names, else in the repository's target/staticlib. Only the bench and the comparison
//! link it.

use std::env;
use std::path::{Path, PathBuf};

fn main() {
    let package = PathBuf::from(env::var_os("CARGO_MANIFEST_DIR").expect("cargo sets it"));
    let named = env::var_os("QUORUM_LIB").unwrap_or("../target/staticlib".into());
    let folder = package.join(Path::new(&named));
    println!("cargo::rerun-if-env-changed=QUORUM_LIB");
    for archive in ["libquorum.a", "libquorum_step.a"] {
        println!("cargo::rerun-if-changed={}", folder.join(archive).display());
    }
    println!("cargo::rustc-link-search=native={}", folder.display());
}
