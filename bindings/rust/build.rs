//! Builds the library with rt, in `crates/groatsaddle`, and links it.
//! Where GROATSADDLE_LIBRARY names a library that is built already, that one is linked.

use std::env;
use std::path::{Path, PathBuf};
use std::process::{exit, Command};

const CHOICE: &str = "GROATSADDLE_LIBRARY";

fn main() {
    println!("cargo:rerun-if-env-changed={CHOICE}");
    let library = match env::var_os(CHOICE) {
        Some(path) => PathBuf::from(path),
        None => built(),
    };
    println!("cargo:rerun-if-changed={}", library.display());
    let Some((folder, name)) = folder_and_name(&library) else {
        stop(&format!(
            "there is no library lib*.a at {}",
            library.display()
        ));
    };
    println!("cargo:rustc-link-search=native={}", folder.display());
    println!("cargo:rustc-link-lib=static={name}");
}

fn built() -> PathBuf {
    let architecture = env::var("CARGO_CFG_TARGET_ARCH").unwrap_or_default();
    if architecture != "x86_64" {
        stop(&format!(
            "the library is for x86-64, and this build is for {architecture}; {CHOICE} can name another"
        ));
    }
    let root = Path::new(env!("CARGO_MANIFEST_DIR")).join("../..");
    // What rt writes lies in a crate's out/, which is not watched.
    for entry in root.join("crates").read_dir().into_iter().flatten().flatten() {
        for part in ["src", "specs", "proofs"] {
            let folder = entry.path().join(part);
            if folder.is_dir() {
                println!("cargo:rerun-if-changed={}", folder.display());
            }
        }
    }
    println!(
        "cargo:rerun-if-changed={}",
        root.join("crates.txt").display()
    );
    let folder = root.join("crates/groatsaddle");
    // Without the flag the library would need a processor of x86-64-v2.
    match Command::new("rt")
        .args(["lib", "--cpu", "x86-64"])
        .current_dir(&folder)
        .status()
    {
        Ok(status) if status.success() => folder.join("out/libgroatsaddle.a"),
        Ok(status) => stop(&format!("rt lib did not build the library: {status}")),
        Err(error) => stop(&format!("rt, of the Rattle kit, can't be run: {error}")),
    }
}

fn folder_and_name(library: &Path) -> Option<(&Path, &str)> {
    let name = library.file_name()?.to_str()?;
    let name = name.strip_prefix("lib")?.strip_suffix(".a")?;
    library.is_file().then_some((library.parent()?, name))
}

fn stop(why: &str) -> ! {
    eprintln!("groatsaddle: {why}");
    exit(1)
}
