//! `compare record DIR`: the Rust's answers in files, for the program `replay`, which needs no Rust. Each file holds
//! records of one length, one behind the other, with nothing before, between or after them. Where the Rust would panic,
//! the refusal is document 01's.

mod keys;
mod pages;
mod sequences;

use std::path::Path;
use std::process::ExitCode;
use std::{fs, io};

/// Fixed, so that the files are the same each time.
const SEED: u64 = 1;

pub fn run(dir: &Path) -> ExitCode {
    match write_all(dir) {
        Ok(()) => ExitCode::SUCCESS,
        Err(e) => {
            eprintln!("{}: {e}", dir.display());
            ExitCode::FAILURE
        }
    }
}

fn write_all(dir: &Path) -> io::Result<()> {
    fs::create_dir_all(dir)?;
    write(dir, "separate", &keys::separate_records(), keys::RECORD)?;
    write(dir, "pages", &pages::page_records(), pages::RECORD)?;
    write(dir, "builds", &pages::build_records(), pages::BUILD_RECORD)?;
    write(dir, "sequences", &sequences::records(), sequences::RECORD)
}

fn write(dir: &Path, name: &str, bytes: &[u8], record: usize) -> io::Result<()> {
    assert_eq!(bytes.len() % record, 0, "{name}: whole records");
    fs::write(dir.join(name), bytes)?;
    let count = bytes.len() / record;
    println!("{name}: {count} records of {record} bytes");
    Ok(())
}
