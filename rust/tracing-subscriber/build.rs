//! Links the proved store: the two static libraries that `lay` put into the folder `proved`, or those of the folder
//! that SPAN_STORE_LIB names.
use std::{env, path::PathBuf, process::exit};

const FOLDER: &str = "SPAN_STORE_LIB";

fn main() {
    println!("cargo:rerun-if-env-changed={}", FOLDER);
    let here = PathBuf::from(env::var_os("CARGO_MANIFEST_DIR").expect("cargo tells the folder")).join("proved");
    let folder = env::var_os(FOLDER).map_or(here, PathBuf::from);
    for library in &["span_store_ffi", "libc_c"] {
        let file = folder.join(format!("lib{}.a", library));
        if !file.is_file() {
            eprintln!("error: there is no {}: the script lay puts it there", file.display());
            exit(1);
        }
        println!("cargo:rerun-if-changed={}", file.display());
        println!("cargo:rustc-link-lib=static={}", library);
    }
    println!("cargo:rustc-link-search=native={}", folder.display());
}
