//! Finds libscaleview: in the folder that SCALEVIEW_LIB_DIR names, in a released crate, by
//! pkg-config, or where `clients/build` puts it. DOCS_RS, which docs.rs sets, asks for none.

use std::path::{Path, PathBuf};
use std::process::{self, Command};
use std::{env, fs};

const FOLDER: &str = "SCALEVIEW_LIB_DIR";
const DOCS: &str = "DOCS_RS";

/// Links the library of a folder, the archive if it is there; returns whether one was found.
fn link(folder: &Path) -> bool {
    let folder = fs::canonicalize(folder).unwrap_or_else(|_| folder.to_path_buf());
    for (file, kind) in [
        ("libscaleview.a", "static"),
        ("libscaleview.so", "dylib"),
        ("libscaleview.dylib", "dylib"),
    ] {
        let path = folder.join(file);
        println!("cargo::rerun-if-changed={}", path.display());
        if path.is_file() {
            println!("cargo::rustc-link-search=native={}", folder.display());
            println!("cargo::rustc-link-lib={kind}=scaleview");
            return true;
        }
    }
    false
}

/// Returns the folder that pkg-config names, or `None` if the program or the package is missing.
fn installed() -> Option<PathBuf> {
    for name in ["PKG_CONFIG", "PKG_CONFIG_PATH", "PKG_CONFIG_LIBDIR"] {
        println!("cargo::rerun-if-env-changed={name}");
    }
    // What pkg-config finds is the host's.
    if env::var_os("TARGET") != env::var_os("HOST") {
        return None;
    }
    let program = env::var_os("PKG_CONFIG").unwrap_or_else(|| "pkg-config".into());
    let wanted = format!("scaleview >= {}", env::var("CARGO_PKG_VERSION").ok()?);
    let output = Command::new(program)
        .args(["--variable=libdir", &wanted])
        .output()
        .ok()?;
    let folder = String::from_utf8(output.stdout).ok()?;
    let folder = folder.trim_end();
    (output.status.success() && !folder.is_empty()).then(|| PathBuf::from(folder))
}

/// Stops the build with one message.
fn stop(reason: &str) -> ! {
    println!(
        "cargo::error={reason}: run `bash clients/build` in the repository, or set {FOLDER} to the \
         folder of libscaleview.a"
    );
    process::exit(1)
}

fn main() {
    println!("cargo::rerun-if-changed=build.rs");
    println!("cargo::rerun-if-env-changed={FOLDER}");
    println!("cargo::rerun-if-env-changed={DOCS}");
    if env::var_os(DOCS).is_some() {
        return;
    }
    if let Some(folder) = env::var_os(FOLDER) {
        if !link(Path::new(&folder)) {
            stop(&format!(
                "libscaleview is not in {}, which {FOLDER} names",
                Path::new(&folder).display()
            ));
        }
        return;
    }
    let crate_folder = PathBuf::from(env::var_os("CARGO_MANIFEST_DIR").unwrap_or_default());
    // A released crate has a library for each platform that it names by a folder.
    let released = crate_folder
        .join("lib")
        .join(env::var_os("TARGET").unwrap_or_default());
    if released.is_dir() && link(&released) {
        return;
    }
    if installed().is_some_and(|folder| link(&folder)) {
        return;
    }
    if !link(&crate_folder.join("../../out")) {
        stop("libscaleview was not found");
    }
}
