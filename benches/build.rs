//! Links the proved library and the functions for the benches alone, libtiming.a: both of the folder in DOUMBAHT_LIB, or
//! each of its crate's out/ in the repository. Where DOUMBAHT_OLD names a folder, also the older ones in it, libold.a and, if it is
//! there, libold_timing.a, whose names begin with `old_` (benches/ab). The library may be older than the openings by locator:
//! whether it has them is seen by their name in it.

use std::path::{Path, PathBuf};
use std::{env, fs};

fn main() {
    println!("cargo:rerun-if-env-changed=DOUMBAHT_LIB");
    println!("cargo:rerun-if-env-changed=DOUMBAHT_OLD");
    println!("cargo:rustc-check-cfg=cfg(old, old_locator, old_timing)");
    for name in ["exports", "timing"] {
        let folder = match env::var_os("DOUMBAHT_LIB") {
            Some(folder) => PathBuf::from(folder),
            None => {
                let crates = Path::new(&env::var_os("CARGO_MANIFEST_DIR").unwrap()).join("../crates");
                crates.join(name).join("out")
            }
        };
        link(&folder, name);
    }
    if let Some(folder) = env::var_os("DOUMBAHT_OLD") {
        println!("cargo:rustc-cfg=old");
        link(Path::new(&folder), "old");
        if names(&Path::new(&folder).join("libold.a"), b"old_doumbaht_open_by_locator") {
            println!("cargo:rustc-cfg=old_locator");
        }
        if Path::new(&folder).join("libold_timing.a").exists() {
            println!("cargo:rustc-cfg=old_timing");
            link(Path::new(&folder), "old_timing");
        }
    }
}

fn link(folder: &Path, name: &str) {
    println!("cargo:rerun-if-changed={}", folder.join(format!("lib{name}.a")).display());
    println!("cargo:rustc-link-search=native={}", folder.display());
    println!("cargo:rustc-link-lib=static={name}");
}

/// Whether a name stands in a library.
fn names(library: &Path, name: &[u8]) -> bool {
    fs::read(library).is_ok_and(|bytes| bytes.windows(name.len()).any(|part| part == name))
}
