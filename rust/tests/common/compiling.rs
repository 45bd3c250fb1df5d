//! Small programs that use this package, compiled one after another, where there is a compiler.
use std::fs;
use std::path::{Path, PathBuf};
use std::process::Command;
use std::time::SystemTime;

/// The folder where the tests and this package are.
fn folder() -> PathBuf {
    let test = std::env::current_exe().expect("a path");
    test.parent().expect("a folder").to_path_buf()
}

/// This package, as it was built last.
fn package(folder: &Path) -> PathBuf {
    let is_it = |path: &PathBuf| {
        let name = path.file_name().and_then(|name| name.to_str()).unwrap_or_default();
        name.starts_with("libspan_registry-") && name.ends_with(".rlib")
    };
    let built = |path: &PathBuf| {
        let data = fs::metadata(path).expect("a file");
        data.modified().unwrap_or(SystemTime::UNIX_EPOCH)
    };
    let files = fs::read_dir(folder).expect("a folder");
    let all = files.map(|file| file.expect("a file").path()).filter(is_it);
    all.max_by_key(built).expect("this package was built")
}

fn compiler() -> Command {
    Command::new(std::env::var_os("RUSTC").unwrap_or_else(|| "rustc".into()))
}

/// Programs are compiled in a folder of their own, which is gone with this.
pub struct Compiling {
    package: PathBuf,
    scratch: PathBuf,
}

impl Compiling {
    /// None where there is no compiler, which is said.
    pub fn new(test: &str) -> Option<Compiling> {
        if compiler().arg("--version").output().is_err() {
            eprintln!("there is no rustc");
            return None;
        }
        let folder = folder();
        let scratch = folder.join(format!("{test}-{}", std::process::id()));
        fs::create_dir_all(&scratch).expect("a folder");
        Some(Compiling {
            package: package(&folder),
            scratch,
        })
    }

    /// Whether a program is right whose `main` has these statements behind a registry `r`, a span `s` and a number `n`,
    /// and what the compiler says.
    pub fn said_of(&self, statements: &str) -> (bool, String) {
        let program = format!(
            "#![allow(unused)]\nuse span_registry::*;\n#[derive(Debug)]\nstruct S;\n\
             fn main() -> Result<(), Error> {{\n    let (r, _d) = Registry::builder().build()?;\n    \
             let (s, n) = (Span::none(), 1);\n    {statements}\n    Ok(())\n}}\n"
        );
        let source = self.scratch.join("program.rs");
        fs::write(&source, program).expect("a file");
        let output = compiler()
            .args(["--edition", "2021", "--emit", "metadata", "--out-dir"])
            .arg(&self.scratch)
            .arg("--extern")
            .arg(format!("span_registry={}", self.package.display()))
            .arg(&source)
            .output()
            .expect("it was there");
        (
            output.status.success(),
            String::from_utf8_lossy(&output.stderr).into_owned(),
        )
    }
}

impl Drop for Compiling {
    fn drop(&mut self) {
        let _gone = fs::remove_dir_all(&self.scratch);
    }
}
