//! Links `libscte35.a`, the proved functions: code for x86-64 Linux, which `host/archive` makes of this repository.
//!
//! It is looked for in the folder SCTE35_LIB names; where that is not set, in the repository's crates/scte35_c/out, where `rt lib` in crates/scte35_c writes it
//! under the name `libscte35_c.a`, then where `host/archive` keeps what it made: the folder that was used last.
use std::env;
use std::fs;
use std::path::{Path, PathBuf};
use std::process::exit;

fn stop(message: &str) -> ! {
    eprintln!("scte35: {message}");
    exit(1);
}

fn set(name: &str) -> Option<PathBuf> {
    println!("cargo:rerun-if-env-changed={name}");
    env::var_os(name).filter(|v| !v.is_empty()).map(PathBuf::from)
}

/// The archives to look for, the first one first.
fn archives() -> Vec<PathBuf> {
    let in_folder = |folder: PathBuf| folder.join("libscte35.a");
    if let Some(folder) = set("SCTE35_LIB") {
        return vec![in_folder(folder)];
    }
    let here = PathBuf::from(env::var_os("CARGO_MANIFEST_DIR").expect("set by cargo"));
    let repository = here.ancestors().nth(2).map(|root| root.join("crates/scte35_c/out/libscte35_c.a"));
    repository.into_iter().chain(kept().into_iter().map(in_folder)).collect()
}

/// What `host/archive` keeps, the folder that was used last first; where it keeps nothing, the place where it would be.
fn kept() -> Vec<PathBuf> {
    let cache = set("XDG_CACHE_HOME").or_else(|| set("HOME").map(|home| home.join(".cache"))).map(|cache| cache.join("scupirtadu"));
    let Some(place) = set("HOST_CACHE").or(cache).map(|cache| cache.join("archive")) else { return vec![] };
    let mut folders: Vec<PathBuf> = fs::read_dir(&place).into_iter().flatten().flatten().map(|entry| entry.path()).collect();
    folders.retain(|folder| folder.join("libscte35.a").is_file());
    folders.sort_by_key(|folder| std::cmp::Reverse(fs::metadata(folder).and_then(|m| m.modified()).ok()));
    folders.truncate(1);
    if folders.is_empty() {
        vec![place.join("*")]
    } else {
        folders
    }
}

fn main() {
    let archives = archives();
    for archive in &archives {
        println!("cargo:rerun-if-changed={}", archive.display());
    }
    let Some(archive) = archives.iter().find(|archive| archive.is_file()) else {
        let places: Vec<String> = archives.iter().map(|archive| format!("\n    {}", archive.display())).collect();
        stop(&format!(
            "no libscte35.a, looked for as{}\nMake it in the repository with `host/archive` (or by `rt lib` in crates/scte35_c, with Rattle's kit), or set \
             SCTE35_LIB to a folder that holds one.",
            places.concat()
        ));
    };
    let (arch, system) = (env::var("CARGO_CFG_TARGET_ARCH").unwrap_or_default(), env::var("CARGO_CFG_TARGET_OS").unwrap_or_default());
    if (&arch[..], &system[..]) != ("x86_64", "linux") {
        stop(&format!(
            "libscte35.a is code for x86-64 Linux, and this is a build for {arch} {system}. Build with `--target x86_64-unknown-linux-gnu`; on another \
             machine that wants a linker (CARGO_TARGET_X86_64_UNKNOWN_LINUX_GNU_LINKER=x86_64-linux-gnu-gcc) and, to run, \
             CARGO_TARGET_X86_64_UNKNOWN_LINUX_GNU_RUNNER=qemu-x86_64."
        ));
    }
    // FOLDER/libNAME.a
    let folder = archive.parent().unwrap_or(Path::new("."));
    let name = archive.file_stem().and_then(|stem| stem.to_str()).and_then(|stem| stem.strip_prefix("lib")).unwrap_or("scte35");
    println!("cargo:rustc-link-search=native={}", folder.display());
    println!("cargo:rustc-link-lib=static={name}");
}
