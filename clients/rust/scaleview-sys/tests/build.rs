//! A build without the library stops with one message, which names the command that makes it.

use std::fs;
use std::path::{Path, PathBuf};
use std::process::Command;

const ADVICE: &str = "run `bash clients/build` in the repository, or set SCALEVIEW_LIB_DIR to the \
    folder of libscaleview.a";

/// Copies the crate to where the repository's library isn't near.
fn copied(name: &str) -> PathBuf {
    let (from, to) = (
        Path::new(env!("CARGO_MANIFEST_DIR")),
        Path::new(env!("CARGO_TARGET_TMPDIR")).join(name),
    );
    fs::create_dir_all(to.join("src")).unwrap();
    for file in ["build.rs", "src/lib.rs"] {
        fs::copy(from.join(file), to.join(file)).unwrap();
    }
    let manifest = fs::read_to_string(from.join("Cargo.toml")).unwrap();
    fs::write(to.join("Cargo.toml"), manifest + "\n[workspace]\n").unwrap();
    to
}

/// Returns whether a copy builds with these variables, and what cargo says.
fn check(name: &str, variables: &[(&str, &Path)]) -> (bool, String) {
    let folder = copied(name);
    let cargo = Command::new(env!("CARGO"))
        .args(["check", "--offline", "--manifest-path"])
        .arg(folder.join("Cargo.toml"))
        .env_remove("SCALEVIEW_LIB_DIR")
        .env("PKG_CONFIG", "/no/pkg-config")
        .env("CARGO_TARGET_DIR", folder.join("target"))
        .envs(variables.iter().copied())
        .output()
        .unwrap();
    (
        cargo.status.success(),
        String::from_utf8_lossy(&cargo.stderr).into_owned(),
    )
}

#[test]
fn a_missing_library_is_explained() {
    let (built, printed) = check("alone", &[]);
    assert!(
        !built && printed.contains(&format!("libscaleview was not found: {ADVICE}")),
        "{printed}"
    );
}

#[test]
fn docs_need_no_library() {
    let (built, printed) = check("docs", &[("DOCS_RS", Path::new("1"))]);
    assert!(built, "{printed}");
}

#[test]
fn a_released_crate_has_the_library() {
    let cargo = Command::new(env!("CARGO")).arg("-vV").output().unwrap();
    let said = String::from_utf8(cargo.stdout).unwrap();
    let host = said
        .lines()
        .find_map(|line| line.strip_prefix("host: "))
        .unwrap();
    let folder = copied("released").join("lib").join(host);
    fs::create_dir_all(&folder).unwrap();
    fs::write(folder.join("libscaleview.a"), b"!<arch>\n").unwrap();
    let (built, printed) = check("released", &[]);
    assert!(built, "{printed}");
}

#[test]
fn a_folder_without_the_library_is_named() {
    let (built, printed) = check("named", &[("SCALEVIEW_LIB_DIR", Path::new("/no/library"))]);
    let wanted =
        format!("libscaleview is not in /no/library, which SCALEVIEW_LIB_DIR names: {ADVICE}");
    assert!(!built && printed.contains(&wanted), "{printed}");
}

#[test]
fn a_folder_with_the_library_is_taken() {
    let folder = Path::new(env!("CARGO_TARGET_TMPDIR")).join("library");
    fs::create_dir_all(&folder).unwrap();
    fs::write(folder.join("libscaleview.a"), b"!<arch>\n").unwrap();
    let (built, printed) = check("found", &[("SCALEVIEW_LIB_DIR", &folder)]);
    assert!(built, "{printed}");
}

/// A program stands for pkg-config, which says where the library is installed.
#[test]
#[cfg(unix)]
fn an_installed_library_is_found() {
    use std::os::unix::fs::PermissionsExt;
    let folder = Path::new(env!("CARGO_TARGET_TMPDIR")).join("installed");
    fs::create_dir_all(&folder).unwrap();
    fs::write(folder.join("libscaleview.a"), b"!<arch>\n").unwrap();
    let program = folder.join("pkg-config");
    let words = "[ \"$*\" = '--variable=libdir scaleview >= 0.1.0' ]";
    fs::write(
        &program,
        format!("#!/bin/sh\n{words} && echo '{}'\n", folder.display()),
    )
    .unwrap();
    fs::set_permissions(&program, fs::Permissions::from_mode(0o755)).unwrap();
    let (built, printed) = check("by_program", &[("PKG_CONFIG", &program)]);
    assert!(built, "{printed}");
}
