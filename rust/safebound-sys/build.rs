//! Finds the library. If SAFEBOUND_LIBRARY_DIR names a folder, the library is searched only there. Otherwise pkg-config
//! finds it where `make install` put it, or it is in a clone of the repository: where `make library` leaves it, or else in
//! dist/ with the release, which is for Linux on x86-64. The archive is preferred to the shared object, since the program
//! then needs no library when it runs. With the feature `command` the library for the whole program is taken from the
//! same folder.

use std::env;
use std::path::{Path, PathBuf};
use std::process::Command;

const VARIABLE: &str = "SAFEBOUND_LIBRARY_DIR";

fn main() {
    for name in [VARIABLE, "PKG_CONFIG", "PKG_CONFIG_PATH", "PKG_CONFIG_LIBDIR", "PKG_CONFIG_SYSROOT_DIR"] {
        println!("cargo:rerun-if-env-changed={name}");
    }
    let folder = folder();
    println!("cargo:rustc-link-search=native={}", folder.display());
    link(&folder, "safebound");
    if env::var_os("CARGO_FEATURE_COMMAND").is_some() {
        link(&folder, "safebound_command");
    }
}

fn link(folder: &Path, name: &str) {
    let (archive, shared) = (folder.join(format!("lib{name}.a")), folder.join(format!("lib{name}.so")));
    let (kind, file) = if archive.is_file() { ("static", archive) } else { ("dylib", shared) };
    if !file.is_file() {
        panic!("neither lib{name}.a nor lib{name}.so is in {}", folder.display());
    }
    println!("cargo:rerun-if-changed={}", file.display());
    println!("cargo:rustc-link-lib={kind}={name}");
}

fn folder() -> PathBuf {
    env::var_os(VARIABLE).map(PathBuf::from).or_else(installed).or_else(in_clone).unwrap_or_else(|| {
        panic!(
            "no library: neither pkg-config nor library/out or dist/ of this repository has it: make library, or name \
             its folder by {VARIABLE}"
        )
    })
}

/// The folder where pkg-config finds the library of this version. Another version's statuses may mean something else.
fn installed() -> Option<PathBuf> {
    let program = env::var_os("PKG_CONFIG").unwrap_or_else(|| "pkg-config".into());
    let package = format!("safebound = {}", env!("CARGO_PKG_VERSION"));
    let said = Command::new(program)
        .args(["--libs-only-L", &package])
        .env("PKG_CONFIG_ALLOW_SYSTEM_LIBS", "1")
        .output()
        .ok()?;
    let folder = PathBuf::from(String::from_utf8(said.stdout).ok()?.trim().strip_prefix("-L")?);
    said.status.success().then_some(folder)
}

/// What is built in the clone, or else the release.
fn in_clone() -> Option<PathBuf> {
    let clone = Path::new(env!("CARGO_MANIFEST_DIR")).join("../..");
    let released = cfg!(all(target_os = "linux", target_arch = "x86_64")).then_some("dist");
    let folders = Some("library/out").into_iter().chain(released);
    let mut there = folders.filter_map(|name| clone.join(name).canonicalize().ok());
    there.find(|folder| folder.join("libsafebound.a").is_file())
}
