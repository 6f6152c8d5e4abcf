//! Build-time help: brings files of the original into OUT_DIR, byte for byte, under their module names.
//!
//! The folder is the one that NANOBOOK_SRC names, by default `../shared/docs/src` from the repository's top.
//! Only with ORACLE_EDIT set (by `oracle/mutants`) is a copy altered, by the one edit that the variable's file holds.

use std::path::{Path, PathBuf};
use std::{env, fs};

/// The files of the original: module name, file name.
pub const FILES: [(&str, &str); 8] = [
    ("recovery", "src--rebalancer--src--recovery.rs.txt"),
    ("audit", "src--rebalancer--src--audit.rs.txt"),
    ("reconcile", "src--rebalancer--src--reconcile.rs.txt"),
    ("types", "src--broker--src--types.rs.txt"),
    ("diff", "src--rebalancer--src--diff.rs.txt"),
    ("error", "src--broker--src--error.rs.txt"),
    ("lib", "src--broker--src--lib.rs.txt"),
    ("clock_skew", "src--rebalancer--src--clock_skew.rs.txt"),
];

/// The folder of the original's files.
pub fn folder() -> PathBuf {
    if let Some(named) = env::var_os("NANOBOOK_SRC") {
        return PathBuf::from(named);
    }
    // This crate lies in oracle/source, so the repository's top is two folders up.
    Path::new(env!("CARGO_MANIFEST_DIR")).join("../../../shared/docs/src")
}

/// Copies the named modules into OUT_DIR and returns it.
pub fn copy(modules: &[&str]) -> PathBuf {
    println!("cargo:rerun-if-env-changed=NANOBOOK_SRC");
    println!("cargo:rerun-if-env-changed=ORACLE_EDIT");
    let from = folder();
    let out = PathBuf::from(env::var_os("OUT_DIR").expect("OUT_DIR"));
    let edit = edit();
    for module in modules {
        let (_, file) = FILES.iter().find(|(m, _)| m == module).expect("a module of the original");
        let path = from.join(file);
        println!("cargo:rerun-if-changed={}", path.display());
        let bytes = fs::read(&path).unwrap_or_else(|e| panic!("{}: {e}; set NANOBOOK_SRC", path.display()));
        let bytes = match &edit {
            Some(e) if e.module == *module => e.apply(bytes),
            _ => bytes,
        };
        let to = out.join(format!("{module}.rs"));
        if fs::read(&to).ok().as_deref() != Some(&bytes[..]) {
            fs::write(&to, bytes).expect("write into OUT_DIR");
        }
    }
    out
}

/// One edit: after the anchor's only occurrence, the first `old` becomes `new`.
struct Edit {
    module: String,
    anchor: String,
    old: String,
    new: String,
}

/// The edit in the file that ORACLE_EDIT names: four lines, module, anchor, old, new.
fn edit() -> Option<Edit> {
    let path = env::var_os("ORACLE_EDIT")?;
    if path.is_empty() {
        return None;
    }
    println!("cargo:rerun-if-changed={}", Path::new(&path).display());
    let text = fs::read_to_string(&path).expect("the edit's file");
    let lines: Vec<&str> = text.lines().collect();
    assert!(lines.len() == 4, "an edit has four lines");
    Some(Edit {
        module: lines[0].into(),
        anchor: lines[1].into(),
        old: lines[2].into(),
        new: lines[3].into(),
    })
}

impl Edit {
    fn apply(&self, bytes: Vec<u8>) -> Vec<u8> {
        let text = String::from_utf8(bytes).expect("UTF-8");
        let at = text.find(&self.anchor).unwrap_or_else(|| panic!("no anchor {}", self.anchor));
        assert!(!text[at + 1..].contains(&self.anchor), "anchor {} occurs twice", self.anchor);
        let place = at + text[at..].find(&self.old).unwrap_or_else(|| panic!("no {} after {}", self.old, self.anchor));
        assert!(self.old != self.new, "the edit changes nothing");
        let mut out = text[..place].to_string();
        out.push_str(&self.new);
        out.push_str(&text[place + self.old.len()..]);
        out.into_bytes()
    }
}
