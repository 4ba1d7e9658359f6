//! Tells cargo where the library is: in the folder that MXP_LIB_DIR names.

use std::env;
use std::path::Path;

const FOLDER: &str = "MXP_LIB_DIR";

fn main() {
    println!("cargo:rerun-if-env-changed={FOLDER}");
    let folder = env::var(FOLDER).unwrap_or_else(|_| panic!("{FOLDER} must name the folder of libmxp.a"));
    // A build script and the linker run in different folders, so a relative path would mean two places.
    assert!(Path::new(&folder).is_absolute(), "{FOLDER} must be an absolute path, and is {folder}");
    let archive = Path::new(&folder).join("libmxp.a");
    assert!(archive.is_file(), "{} is not there", archive.display());
    println!("cargo:rerun-if-changed={}", archive.display());
    println!("cargo:rustc-link-search=native={folder}");
    println!("cargo:rustc-link-lib=static=mxp");
}
