//! Copies the reference sources into OUT_DIR with their text unchanged and
//! appends to some copies one line that declares a child module, so that the
//! harness reaches private items.

use std::env;
use std::fs;
use std::path::{Path, PathBuf};

const VARIABLE: &str = "DELTA_SNAPSHOT_SRC";
/// Seen from the repository's root.
const DEFAULT_FOLDER: &str = "../shared/docs/src";
const PREFIX: &str = "src--rust--crates--engine--degenbot-simulation--src--sim--";

/// A source: its module, its name after the prefix, and whether a child
/// module is appended.
struct Source {
    module: &'static str,
    file: &'static str,
    access: bool,
}

const SOURCES: [Source; 4] = [
    Source {
        module: "storage_memo",
        file: "storage_memo.rs.txt",
        access: false,
    },
    Source {
        module: "bal_prefetch",
        file: "evm2--bal_prefetch.rs.txt",
        access: true,
    },
    Source {
        module: "read_hub",
        file: "evm2--read_hub.rs.txt",
        access: true,
    },
    Source {
        module: "delta_snapshot",
        file: "evm2--delta_snapshot.rs.txt",
        access: true,
    },
];

fn main() {
    let package = PathBuf::from(env::var("CARGO_MANIFEST_DIR").unwrap());
    let out = PathBuf::from(env::var("OUT_DIR").unwrap());
    let folder = source_folder(&package);
    for source in &SOURCES {
        copy_source(&package, &out, &folder, source);
    }
    fs::write(out.join("modules.rs"), module_tree(&out)).unwrap();
    println!("cargo:rerun-if-env-changed={VARIABLE}");
    println!("cargo:rustc-env=ORACLE_SOURCES={}", folder.display());
    println!("cargo:rustc-env=ORACLE_COPIES={}", out.display());
}

fn source_folder(package: &Path) -> PathBuf {
    let given = env::var(VARIABLE).unwrap_or_else(|_| DEFAULT_FOLDER.into());
    package.parent().unwrap().join(given)
}

fn copy_source(package: &Path, out: &Path, folder: &Path, source: &Source) {
    let from = folder.join(format!("{PREFIX}{}", source.file));
    println!("cargo:rerun-if-changed={}", from.display());
    let text = fs::read(&from)
        .unwrap_or_else(|error| panic!("{}: {error} (see {VARIABLE})", from.display()));
    let mut copy = text.clone();
    if source.access {
        let child = package.join(format!("src/access/{}.rs", source.module));
        copy.extend_from_slice(
            format!("\n#[path = {child:?}]\npub mod oracle_access;\n").as_bytes(),
        );
    }
    assert!(copy.starts_with(&text), "the copy begins with the source");
    fs::write(out.join(format!("{}.rs", source.module)), copy).unwrap();
}

/// The module paths that the sources expect: `crate::sim::storage_memo`, and
/// the others as siblings in `crate::sim::evm2`.
fn module_tree(out: &Path) -> String {
    let declare = |module: &str| {
        let path = out.join(format!("{module}.rs"));
        format!("#[path = {path:?}]\npub mod {module};\n")
    };
    format!(
        "pub mod sim {{\n{}pub mod evm2 {{\n\
         pub use crate::missing::{{head_lifecycle, storage_view}};\n{}{}{}}}\n}}\n",
        declare("storage_memo"),
        declare("bal_prefetch"),
        declare("read_hub"),
        declare("delta_snapshot"),
    )
}
