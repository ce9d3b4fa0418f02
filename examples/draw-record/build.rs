//! Links the proved library: of the folder in DOUMBAHT_LIB, or crates/exports/out of the repository.

use std::env;
use std::path::PathBuf;

fn main() {
    let folder = match env::var_os("DOUMBAHT_LIB") {
        Some(folder) => PathBuf::from(folder),
        None => {
            let here = PathBuf::from(env::var_os("CARGO_MANIFEST_DIR").unwrap());
            here.ancestors().nth(2).unwrap().join("crates/exports/out")
        }
    };
    let library = folder.join("libexports.a");
    println!("cargo::rerun-if-env-changed=DOUMBAHT_LIB");
    println!("cargo::rerun-if-changed={}", library.display());
    if !library.is_file() {
        // Said here, since a linker would only say that it cannot find -lexports. A cargo that does not know this key stops at
        // it too, and shows the line.
        println!("cargo::error=no libexports.a in {}: run `rt lib` in crates/exports first", folder.display());
        return;
    }
    println!("cargo::rustc-link-search=native={}", folder.display());
    println!("cargo::rustc-link-lib=static=exports");
}
