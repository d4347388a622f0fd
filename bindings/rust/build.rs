//! Finds the static library: in the folder that `POXILME_LIB_DIR` names, or in `crates/poxilme/out` of the repository that
//! this crate stands in.

use std::env;
use std::path::PathBuf;

const VARIABLE: &str = "POXILME_LIB_DIR";
const FILE: &str = "libpoxilme.a";

fn main() {
    println!("cargo::rerun-if-env-changed={VARIABLE}");
    match library_folder() {
        Ok(folder) => {
            println!("cargo::rerun-if-changed={}", folder.join(FILE).display());
            println!("cargo::rustc-link-search=native={}", folder.display());
            println!("cargo::rustc-link-lib=static=poxilme");
        }
        Err(line) => println!("cargo::error={line}"),
    }
}

/// The folder, or one line that says what to do.
fn library_folder() -> Result<PathBuf, String> {
    let target = env::var("CARGO_CFG_TARGET_ARCH").unwrap_or_default();
    if target != "x86_64" {
        return Err(format!("{FILE} is built for x86-64, and this build is for {target}"));
    }
    let package = PathBuf::from(env::var_os("CARGO_MANIFEST_DIR").expect("cargo sets it"));
    let folder = match env::var_os(VARIABLE) {
        None => package.join("../../crates/poxilme/out"),
        Some(folder) if PathBuf::from(&folder).is_absolute() => PathBuf::from(folder),
        Some(folder) => {
            return Err(format!("{VARIABLE} has to be an absolute path, and is {}", PathBuf::from(folder).display()))
        }
    };
    if !folder.join(FILE).is_file() {
        return Err(format!(
            "there is no {FILE} in {}: run `tools/prove poxilme` in the repository's root, or name the folder that has it in \
             {VARIABLE}",
            folder.display()
        ));
    }
    Ok(folder)
}
