//! Finds the static library `libhost.a`, or has it built, and links the crate with it.

use std::env;
use std::path::{Path, PathBuf};
use std::process::Command;

/// The variable that names a folder which has the library.
const VARIABLE: &str = "KAFONDIYE_LIB";

/// The library's file.
const LIBRARY: &str = "libhost.a";

fn main() {
    println!("cargo::rerun-if-env-changed={VARIABLE}");
    match folder() {
        Ok(folder) => {
            println!("cargo::rerun-if-changed={}", folder.join(LIBRARY).display());
            println!("cargo::rustc-link-search=native={}", folder.display());
            println!("cargo::rustc-link-lib=static=host");
        }
        Err(message) => {
            for line in message.lines() {
                println!("cargo::error={line}");
            }
        }
    }
}

/// The folder that has the library, or why there is none.
fn folder() -> Result<PathBuf, String> {
    let processor = env::var("CARGO_CFG_TARGET_ARCH").unwrap_or_default();
    if processor != "x86_64" {
        return Err(format!(
            "{LIBRARY} is for x86-64 and this build is for {processor}; \
             build with --target x86_64-unknown-linux-gnu"
        ));
    }
    match env::var_os(VARIABLE) {
        Some(named) => named_folder(PathBuf::from(named)),
        None => own_folder(),
    }
}

/// The folder that the variable names, from the crate's own folder if it is relative.
fn named_folder(folder: PathBuf) -> Result<PathBuf, String> {
    match folder.canonicalize() {
        Ok(whole) if whole.join(LIBRARY).is_file() => Ok(whole),
        _ => {
            let folder = folder.display();
            Err(format!("{VARIABLE} is {folder}, which has no {LIBRARY}"))
        }
    }
}

/// The folder of this repository, where its script `library` makes the library if it is not there or a source is newer.
fn own_folder() -> Result<PathBuf, String> {
    let root = Path::new(env!("CARGO_MANIFEST_DIR"))
        .parent()
        .ok_or("the crate stands in no repository")?;
    build_library(root)?;
    Ok(root.join("target/staticlib"))
}

/// Has the Rattle kit prove and build the library. What it says is shown only where it fails.
fn build_library(root: &Path) -> Result<(), String> {
    let script = root.join("library");
    let built = Command::new(&script).output().map_err(|error| {
        format!(
            "{}, which makes {LIBRARY}, does not run ({error}); set {VARIABLE} to a folder that has {LIBRARY}",
            script.display()
        )
    })?;
    if built.status.success() {
        return Ok(());
    }
    let said = [built.stdout, built.stderr].concat();
    Err(format!(
        "{} does not make {LIBRARY}; put the Rattle kit's rt on the PATH, or set {VARIABLE} to a folder that has \
         {LIBRARY}:\n{}",
        script.display(),
        String::from_utf8_lossy(&said)
    ))
}
