//! Finds the proved static library, and the toolchain's shim through which it takes memory.
use std::env;
use std::path::{Path, PathBuf};
use std::process::{exit, Command};

/// The folder of the library; without it, the one where the crate of the proved sources has it.
const LIBRARY_FOLDER: &str = "SPAN_REGISTRY_LIB";
/// The folder of the shim; without it, the toolchain's own, which `rt doc` tells.
const SHIM_FOLDER: &str = "SPAN_REGISTRY_SHIM";

fn main() {
    for name in [LIBRARY_FOLDER, SHIM_FOLDER] {
        println!("cargo:rerun-if-env-changed={name}");
    }
    link(&library_folder(), "span_ffi", LIBRARY_FOLDER);
    link(&shim_folder(), "libc_c", SHIM_FOLDER);
}

fn library_folder() -> PathBuf {
    env::var_os(LIBRARY_FOLDER).map_or_else(
        || Path::new(env!("CARGO_MANIFEST_DIR")).join("../crates/span_ffi/out"),
        PathBuf::from,
    )
}

fn shim_folder() -> PathBuf {
    if let Some(folder) = env::var_os(SHIM_FOLDER) {
        return PathBuf::from(folder);
    }
    let Ok(page) = Command::new("rt").arg("doc").output() else {
        fail(&format!(
            "the Rattle toolchain's command rt is not on the PATH, and {SHIM_FOLDER} is not set"
        ));
    };
    let page = PathBuf::from(String::from_utf8_lossy(&page.stdout).trim());
    page.parent()
        .map_or_else(|| fail("rt doc tells no page"), |kit| kit.join("c"))
}

fn link(folder: &Path, library: &str, variable: &str) {
    let file = folder.join(format!("lib{library}.a"));
    if !file.is_file() {
        fail(&format!(
            "there is no {}, and {variable} names no other folder",
            file.display()
        ));
    }
    println!("cargo:rerun-if-changed={}", file.display());
    println!("cargo:rustc-link-search=native={}", folder.display());
    println!("cargo:rustc-link-lib=static={library}");
}

fn fail(reason: &str) -> ! {
    eprintln!("error: {reason}");
    eprintln!("run ./rust/build at the top of the repository: it proves and builds the library, and then this crate");
    exit(1)
}
