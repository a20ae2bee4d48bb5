//! Finds libkeybasket.a, which `make` writes: in the folder that KEYBASKET_LIB_DIR names, else in dist of the repository that this
//! crate stands in. The names of the refusals come from the header beside it, or in the include folder beside an installed lib folder.
use std::env;
use std::fs;
use std::path::{Path, PathBuf};

fn main() {
    println!("cargo:rerun-if-env-changed=KEYBASKET_LIB_DIR");
    let manifest = PathBuf::from(env::var_os("CARGO_MANIFEST_DIR").expect("cargo sets it"));
    let named = env::var_os("KEYBASKET_LIB_DIR").map(PathBuf::from);
    // A relative folder is one of this crate's folder, where cargo runs this program.
    let folder = manifest.join(named.unwrap_or_else(|| "../../dist".into()));
    let archive = folder.join("libkeybasket.a");
    if !archive.is_file() {
        panic!(
            "there is no {}: run `make`, or set KEYBASKET_LIB_DIR to the folder of libkeybasket.a",
            archive.display()
        );
    }
    println!("cargo:rerun-if-changed={}", archive.display());
    println!("cargo:rustc-link-search=native={}", folder.display());
    println!("cargo:rustc-link-lib=static=keybasket");
    write_names(&folder);
}

/// Writes the header's refusals, each as number and name, as a Rust array. The header must be one of eight numbers, as this crate is: a call of
/// another library would write more of them than there is room for, or fewer than are read.
fn write_names(folder: &Path) {
    let places = [
        folder.join("keybasket.h"),
        folder.join("../include/keybasket.h"),
    ];
    let header = places
        .iter()
        .find(|path| path.is_file())
        .expect("keybasket.h stands by the archive");
    println!("cargo:rerun-if-changed={}", header.display());
    let text = fs::read_to_string(header).expect("keybasket.h is readable");
    assert!(
        text.contains("KEYBASKET_NUMBERS = 8\n"),
        "{} is of another version than this crate: its readings are not of eight numbers",
        header.display()
    );
    let mut names = Vec::new();
    let mut last = 0;
    // A line of the list is `X(1, KEYBASKET_EMPTY, "Empty")`.
    for row in text
        .lines()
        .filter_map(|line| line.trim().strip_prefix("X("))
    {
        let fields: Vec<&str> = row.split([',', ')']).map(str::trim).collect();
        let number: u64 = fields[0].parse().expect("a refusal has a number");
        assert!(number > last, "the list is in order");
        last = number;
        names.push(format!("({number}, {})", fields[2]));
    }
    assert!(!names.is_empty(), "keybasket.h has a list of refusals");
    let made = PathBuf::from(env::var_os("OUT_DIR").expect("cargo sets it")).join("names.rs");
    fs::write(made, format!("&[{}]", names.join(", "))).expect("OUT_DIR is writable");
}
