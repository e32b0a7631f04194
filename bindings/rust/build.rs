//! Finds libdunkelva, and says how to link it.
//!
//! The folder is the one that DUNKELVA_LIB_DIR names, else the one that pkg-config knows, else
//! out/library of the checkout that this package is in. With DUNKELVA_STATIC=1 libdunkelva.a is
//! linked, with DUNKELVA_STATIC=0 libdunkelva.so; else the first of the two that exists. If DOCS_RS
//! is set, no library is looked for: `cargo doc` and `cargo check` need none.

use std::env;
use std::path::{Path, PathBuf};
use std::process::{self, Command};

fn main() {
    for name in [
        "DOCS_RS",
        "DUNKELVA_LIB_DIR",
        "DUNKELVA_STATIC",
        "PKG_CONFIG_PATH",
    ] {
        println!("cargo:rerun-if-env-changed={}", name);
    }
    println!("cargo:rerun-if-changed=build.rs");
    if env::var_os("DOCS_RS").is_some() {
        return;
    }
    match find() {
        Ok((folder, kind)) => {
            println!(
                "cargo:rerun-if-changed={}",
                folder.join(file_of(kind)).display()
            );
            println!("cargo:rustc-link-search=native={}", folder.display());
            println!("cargo:rustc-link-lib={}=dunkelva", kind);
        }
        Err(fault) => {
            eprintln!("{}", fault);
            process::exit(1);
        }
    }
}

/// Returns the folder of the library, and the kind by which it is linked.
fn find() -> Result<(PathBuf, &'static str), String> {
    let kinds = match env::var("DUNKELVA_STATIC").as_deref() {
        Err(_) | Ok("") => vec!["static", "dylib"],
        Ok("1") => vec!["static"],
        Ok("0") => vec!["dylib"],
        Ok(other) => return Err(format!("DUNKELVA_STATIC is 0 or 1, not {:?}", other)),
    };
    let folders = folders();
    for folder in &folders {
        for kind in &kinds {
            if folder.join(file_of(kind)).exists() {
                return Ok((folder.clone(), *kind));
            }
        }
    }
    Err(not_found(&kinds, &folders))
}

/// Returns the folders to look in, in their order.
fn folders() -> Vec<PathBuf> {
    if let Some(named) = env::var_os("DUNKELVA_LIB_DIR").filter(|it| !it.is_empty()) {
        return vec![PathBuf::from(named)];
    }
    let here = PathBuf::from(env::var_os("CARGO_MANIFEST_DIR").unwrap_or_default());
    installed()
        .into_iter()
        .chain([here.join("../../out/library")])
        .collect()
}

/// Returns the folder of the library that pkg-config knows.
fn installed() -> Option<PathBuf> {
    let asked = Command::new("pkg-config")
        .args(["--variable=libdir", "dunkelva"])
        .output()
        .ok()?;
    let said = String::from_utf8(asked.stdout).ok()?;
    Some(PathBuf::from(said.trim())).filter(|_| asked.status.success())
}

/// Returns the name of the library's file.
fn file_of(kind: &str) -> &'static Path {
    Path::new(if kind == "static" {
        "libdunkelva.a"
    } else {
        "libdunkelva.so"
    })
}

/// Says what was looked for and what to do.
fn not_found(kinds: &[&str], folders: &[PathBuf]) -> String {
    let files: Vec<_> = kinds
        .iter()
        .map(|kind| file_of(kind).display().to_string())
        .collect();
    let places: Vec<_> = folders
        .iter()
        .map(|it| format!("    {}", it.display()))
        .collect();
    format!(
        "dunkelva: there is no {} in\n{}\n\
         Run `make library` in a checkout of Dunkelva, which needs the Rattle toolchain. Then run\n\
         `make install-library`, so that pkg-config finds the library, or set DUNKELVA_LIB_DIR\n\
         to the folder out/library of the checkout. DOCS_RS=1 is enough for `cargo doc` and\n\
         `cargo check`.",
        files.join(" or "),
        places.join("\n")
    )
}
