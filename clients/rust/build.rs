//! Links the static library: from the folder that YIGTRAV_DIST names, otherwise from dist/ of the repository. Nothing
//! compares the declarations of src/words.rs with the library, so its header must have the number that they have.
use std::env;
use std::fs;
use std::path::PathBuf;
use std::process::exit;

/// The interface that src/words.rs declares: YIGTRAV_VERSION_MAJOR of its yigtrav.h.
const INTERFACE: &str = "1";

fn main() {
    let folder = match env::var_os("YIGTRAV_DIST") {
        Some(folder) => PathBuf::from(folder),
        None => PathBuf::from(env::var_os("CARGO_MANIFEST_DIR").unwrap()).join("../../dist"),
    };
    let header = folder.join("include/yigtrav.h");
    println!("cargo:rerun-if-env-changed=YIGTRAV_DIST");
    println!("cargo:rerun-if-changed={}", header.display());
    println!("cargo:rerun-if-changed={}", folder.join("libyigtrav.a").display());
    let text = fs::read_to_string(&header).unwrap_or_default();
    let number = text.lines().find_map(|line| line.strip_prefix("#define YIGTRAV_VERSION_MAJOR "));
    if number != Some(INTERFACE) {
        let found = number.map_or("there is no such header".into(), |number| format!("it has {number}"));
        eprintln!("this crate is written for interface {INTERFACE} of {}; {found}", header.display());
        exit(1);
    }
    println!("cargo:rustc-link-search=native={}", folder.display());
    println!("cargo:rustc-link-lib=static=yigtrav");
}
