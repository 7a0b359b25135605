//! Finds the library's archive, and links it. `PKVM_LIBRARY` names another one.
use std::path::{Path, PathBuf};
use std::{env, fs, process};

/// Says what is wrong, and ends the build.
fn stop(why: &str) -> ! {
    eprintln!("pkvm-oracle-sys: {why}");
    process::exit(1);
}

/// The version in a header, as in its `#define PKVM_VERSION 0x300000000ull`: 3.0.0.
fn version_in(header: &str) -> Option<String> {
    let line = header
        .lines()
        .find_map(|it| it.strip_prefix("#define PKVM_VERSION 0x"))?;
    let number = u64::from_str_radix(line.trim_end().trim_end_matches("ull"), 16).ok()?;
    Some(format!(
        "{}.{}.{}",
        number >> 32,
        number >> 16 & 0xffff,
        number & 0xffff
    ))
}

/// The header that belongs to an archive: beside it where it is installed, else the repository's.
fn header_of(archive: &Path, top: &Path) -> PathBuf {
    let installed = archive
        .parent()
        .map(|it| it.join("../include/pkvm_oracle.h"));
    installed
        .filter(|it| it.is_file())
        .unwrap_or_else(|| top.join("include/pkvm_oracle.h"))
}

fn main() {
    println!("cargo:rerun-if-env-changed=PKVM_LIBRARY");
    let top =
        PathBuf::from(env::var("CARGO_MANIFEST_DIR").expect("cargo sets it")).join("../../..");
    let target = env::var("TARGET").expect("cargo sets it");
    let archive = match env::var_os("PKVM_LIBRARY") {
        Some(file) => PathBuf::from(file),
        None => top.join(format!(
            "crates/pkvm_oracle/out/c/{target}/libpkvm_oracle.a"
        )),
    };
    println!("cargo:rerun-if-changed={}", archive.display());
    if !archive.is_file() {
        stop(&format!(
            "{} is no file.\n\
             In the repository, `examples/c/library` proves the library and makes it, which takes half an hour or more the first time.\n\
             `examples/c/library --unproved` makes one in some minutes. It prints a file: set PKVM_LIBRARY to it.",
            archive.display()
        ));
    }
    let header = header_of(&archive, &top);
    println!("cargo:rerun-if-changed={}", header.display());
    let own = env::var("CARGO_PKG_VERSION").expect("cargo sets it");
    match fs::read_to_string(&header)
        .ok()
        .as_deref()
        .and_then(version_in)
    {
        Some(version) if version == own => {}
        Some(version) => stop(&format!(
            "{} is of version {version}, this crate of {own}",
            header.display()
        )),
        None => stop(&format!("{} has no PKVM_VERSION", header.display())),
    }
    let name = archive
        .file_name()
        .and_then(|it| it.to_str())
        .unwrap_or_default();
    let Some(name) = name
        .strip_prefix("lib")
        .and_then(|it| it.strip_suffix(".a"))
    else {
        stop(&format!(
            "{} isn't named as an archive is, libNAME.a",
            archive.display()
        ));
    };
    let folder = archive
        .parent()
        .filter(|it| *it != Path::new(""))
        .unwrap_or(Path::new("."));
    println!("cargo:rustc-link-search=native={}", folder.display());
    println!("cargo:rustc-link-lib=static={name}");
}
