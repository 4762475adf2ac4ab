//! Links target/staticlib/libexports.a of the repository; where it isn't there, `reference/library` builds it.
//! The variable TANSYGATE_LIBRARY names an archive to link instead.
use std::env;
use std::path::{Path, PathBuf};
use std::process::Command;

fn main() {
    println!("cargo:rerun-if-changed=build.rs");
    println!("cargo:rerun-if-env-changed=TANSYGATE_LIBRARY");
    let target = |part: &str| env::var(format!("CARGO_CFG_TARGET_{part}")).unwrap_or_default();
    if target("ARCH") != "x86_64" || target("OS") != "linux" {
        stop("the library is built for x86-64 Linux only");
    }
    let archive = match env::var_os("TANSYGATE_LIBRARY") {
        Some(named) => PathBuf::from(named),
        None => in_repository(),
    };
    if !archive.is_file() {
        stop(&format!("there is no file {}", archive.display()));
    }
    println!("cargo:rerun-if-changed={}", archive.display());
    // Linked under its own name from a folder of its own, whatever the archive's name is.
    let folder = PathBuf::from(env::var_os("OUT_DIR").expect("cargo sets OUT_DIR"));
    if let Err(error) = std::fs::copy(&archive, folder.join("libexports.a")) {
        stop(&format!("{}: {error}", archive.display()));
    }
    println!("cargo:rustc-link-search=native={}", folder.display());
    println!("cargo:rustc-link-lib=static=exports");
}

/// The repository's archive, built first where it isn't there.
fn in_repository() -> PathBuf {
    let here = PathBuf::from(env::var_os("CARGO_MANIFEST_DIR").expect("cargo sets CARGO_MANIFEST_DIR"));
    let root = here.join("../..");
    let archive = root.join("target/staticlib/libexports.a");
    if !archive.is_file() {
        build(&root);
    }
    warn_if_older(&archive, &root.join("crates"));
    archive
}

fn build(root: &Path) {
    let script = root.join("reference/library");
    if !script.is_file() {
        stop("neither target/staticlib/libexports.a nor reference/library is there: build inside the repository, or name an archive in TANSYGATE_LIBRARY");
    }
    if Command::new("rt").arg("version").output().is_err() {
        stop("target/staticlib/libexports.a isn't there, and the Rattle kit that builds it (the command rt) isn't in PATH: install the kit, or name an archive in TANSYGATE_LIBRARY");
    }
    match Command::new(&script).status() {
        Ok(status) if status.success() => {}
        Ok(status) => stop(&format!("reference/library failed ({status}): run it by hand to see why")),
        Err(error) => stop(&format!("reference/library: {error}")),
    }
}

/// An archive that is older than the proved code is linked all the same, and said to be.
fn warn_if_older(archive: &Path, crates: &Path) {
    let Ok(built) = archive.metadata().and_then(|m| m.modified()) else { return };
    for entry in std::fs::read_dir(crates).into_iter().flatten().flatten() {
        let source = entry.path().join("src");
        println!("cargo:rerun-if-changed={}", source.display());
        for file in std::fs::read_dir(&source).into_iter().flatten().flatten() {
            if file.metadata().and_then(|m| m.modified()).is_ok_and(|changed| changed > built) {
                println!(
                    "cargo:warning={} is newer than target/staticlib/libexports.a: run reference/library",
                    file.path().display()
                );
                return;
            }
        }
    }
}

fn stop(text: &str) -> ! {
    eprintln!("tansygate: {text}");
    std::process::exit(1)
}
