//! Links the static library of the proved crates: `libcapi.a`, as `rt lib` writes it in the repository's crates/capi, or `libsitgurp.a`, as
//! `./install` puts it in place. The folder is `SITGURP_LIB_DIR` where that is set, and the repository's `crates/capi/out` otherwise.

use std::path::{Path, PathBuf};
use std::process::exit;

const FOLDER: &str = "SITGURP_LIB_DIR";

fn main() {
    println!("cargo:rerun-if-env-changed={FOLDER}");
    let given = std::env::var_os(FOLDER).map(PathBuf::from);
    let own = Path::new(env!("CARGO_MANIFEST_DIR")).join("../../crates/capi/out");
    let folder = given.clone().unwrap_or(own);
    for name in ["sitgurp", "capi"] {
        let archive = folder.join(format!("lib{name}.a"));
        // a file that is not there would count as changed in every build
        if archive.exists() {
            println!("cargo:rerun-if-changed={}", archive.display());
            println!("cargo:rustc-link-search=native={}", folder.display());
            println!("cargo:rustc-link-lib=static={name}");
            return;
        }
    }
    match given {
        Some(folder) => eprintln!("{FOLDER} is {}, which has no libsitgurp.a", folder.display()),
        None => eprintln!("the proved library is missing: run `rt lib` in crates/capi, or set {FOLDER} to the folder of libsitgurp.a"),
    }
    exit(1);
}
