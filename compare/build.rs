//! Finds the two sides: the Rust source (variable NOMT_SRC) and the proved static library.
//! Nothing of the Rust source is copied into the repository; the modules include it from its place.

use std::path::{Path, PathBuf};
use std::{env, fs, process};

/// The source's place seen from the repository's root, unless NOMT_SRC says otherwise.
const DEFAULT_SOURCE: &str = "../shared/docs/src";

const INCLUDED: [&str; 3] = [
    "nomt/src/beatree/ops/bit_ops.rs",
    "nomt/src/beatree/leaf/node.rs",
    "nomt/src/beatree/ops/update/leaf_updater.rs",
];
/// Its function `total_needed_pages` is private, so a child module that calls it is put behind its text.
const OVERFLOW: &str = "nomt/src/beatree/ops/overflow.rs";
const BEHIND_OVERFLOW: &str = "
pub mod inside {
    pub fn total_needed_pages(value_size: usize) -> usize {
        super::total_needed_pages(value_size)
    }
}
";
const LIMITS: &str = "nomt/src/beatree/ops/update/mod.rs";
const PAGE: &str = "nomt/src/io/mod.rs";

fn main() {
    let root = PathBuf::from(variable("CARGO_MANIFEST_DIR")).join("..");
    find_source(&root);
    find_library(&root);
}

fn find_source(root: &Path) {
    println!("cargo:rerun-if-env-changed=NOMT_SRC");
    let named = env::var("NOMT_SRC").unwrap_or_else(|_| DEFAULT_SOURCE.to_string());
    let place = root.join(&named);
    let source = place.canonicalize().unwrap_or_else(|e| {
        let place = place.display();
        fail(&format!(
            "no Rust source at {place} ({e}); NOMT_SRC names it, seen from the repository's root"
        ))
    });
    for file in INCLUDED {
        read(&source.join(file));
    }
    check_page_size(&read(&source.join(PAGE)));
    extract_limits(&read(&source.join(LIMITS)));
    write_overflow(&read(&source.join(OVERFLOW)));
    // A feature of the Rust that stays off; named so that the compiler does not warn of it.
    println!("cargo:rustc-check-cfg=cfg(feature, values(\"benchmarks\"))");
    println!("cargo:rustc-env=NOMT_SRC={}", source.display());
}

/// io/mod.rs leans on crates that are not here, so the oracle states the page size itself.
fn check_page_size(text: &str) {
    if !text.contains("PAGE_SIZE: usize = 4096;") {
        fail(&format!("{PAGE}: the page size is not 4096"));
    }
}

/// update/mod.rs cannot be included whole for the same reason; its three limits are taken as they stand.
fn extract_limits(text: &str) {
    let lines: Vec<&str> = text
        .lines()
        .filter(|line| line.starts_with("const LEAF_"))
        .collect();
    if lines.len() != 3 || !lines.iter().all(|line| line.ends_with(';')) {
        fail(&format!("{LIMITS}: not three `const LEAF_` lines"));
    }
    let out = PathBuf::from(variable("OUT_DIR")).join("leaf_limits.rs");
    fs::write(&out, lines.join("\n") + "\n").unwrap_or_else(|e| fail(&e.to_string()));
}

/// overflow.rs begins with `//!`, which `include!` does not take: what is included declares it as a module.
fn write_overflow(text: &str) {
    let folder = PathBuf::from(variable("OUT_DIR"));
    let file = folder.join("overflow.rs");
    let module = format!("#[path = {file:?}]\npub mod overflow;\n");
    let written = fs::write(&file, text.to_string() + BEHIND_OVERFLOW);
    let written = written.and(fs::write(folder.join("overflow_module.rs"), module));
    written.unwrap_or_else(|e| fail(&e.to_string()));
}

fn find_library(root: &Path) {
    let folder = root.join("target/staticlib");
    let library = folder.join("libleaf_updater.a");
    println!("cargo:rerun-if-changed={}", library.display());
    if !library.exists() {
        fail("no target/staticlib/libleaf_updater.a; run `tools/library` first");
    }
    println!("cargo:rustc-link-search=native={}", folder.display());
    println!("cargo:rustc-link-lib=static=leaf_updater");
}

fn read(path: &Path) -> String {
    println!("cargo:rerun-if-changed={}", path.display());
    fs::read_to_string(path).unwrap_or_else(|e| fail(&format!("{}: {e}", path.display())))
}

fn variable(name: &str) -> String {
    env::var(name).unwrap_or_else(|e| fail(&format!("{name}: {e}")))
}

fn fail(why: &str) -> ! {
    eprintln!("{why}");
    process::exit(1);
}
