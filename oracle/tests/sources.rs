//! The compiled copies begin with the exact bytes of the sources, and what
//! follows is the declaration of a child module.

use std::fs;
use std::path::Path;

const PREFIX: &str = "src--rust--crates--engine--degenbot-simulation--src--sim--";

#[test]
fn unchanged() {
    let sources = Path::new(env!("ORACLE_SOURCES"));
    let copies = Path::new(env!("ORACLE_COPIES"));
    for (module, file) in [
        ("storage_memo", "storage_memo"),
        ("bal_prefetch", "evm2--bal_prefetch"),
        ("read_hub", "evm2--read_hub"),
        ("delta_snapshot", "evm2--delta_snapshot"),
    ] {
        let source = fs::read(sources.join(format!("{PREFIX}{file}.rs.txt"))).unwrap();
        let copy = fs::read(copies.join(format!("{module}.rs"))).unwrap();
        assert!(!source.is_empty() && copy.starts_with(&source), "{module}");
        let rest = String::from_utf8(copy[source.len()..].to_vec()).unwrap();
        let lines: Vec<&str> = rest.lines().filter(|line| !line.is_empty()).collect();
        match lines.as_slice() {
            [] => {}
            [path, declaration] => {
                assert!(path.starts_with("#[path = "), "{module}");
                assert_eq!(*declaration, "pub mod oracle_access;", "{module}");
            }
            _ => panic!("{module} has more appended"),
        }
    }
}
