//! Finds the library: in the folder that CUPDAISY_LIB_DIR names; else where pkg-config says; else in build/ of the repository
//! that this crate lies in. The archive is linked where it is there, else the shared library.

use std::env;
use std::path::{Path, PathBuf};
use std::process::Command;

fn main() {
    println!("cargo:rerun-if-env-changed=CUPDAISY_LIB_DIR");
    println!("cargo:rerun-if-env-changed=PKG_CONFIG_PATH");
    println!("cargo:rerun-if-env-changed=PKG_CONFIG_LIBDIR");
    println!("cargo:rerun-if-env-changed=PKG_CONFIG_SYSROOT_DIR");
    let Some(folder) = named().or_else(installed).or_else(built) else {
        panic!(
            "libcupdaisy 0.3 isn't there: install it (`make install`, or Debian's package libcupdaisy-dev), \
             or name the folder that has libcupdaisy.a by CUPDAISY_LIB_DIR"
        );
    };
    let archive = folder.join("libcupdaisy.a");
    println!("cargo:rerun-if-changed={}", archive.display());
    println!("cargo:rustc-link-search=native={}", folder.display());
    println!("cargo:rustc-link-lib={}=cupdaisy", if archive.exists() { "static" } else { "dylib" });
}

/// The folder that the environment names.
fn named() -> Option<PathBuf> {
    env::var_os("CUPDAISY_LIB_DIR").map(PathBuf::from)
}

/// The folder that the file cupdaisy.pc names; for another machine only where pkg-config is told which one.
fn installed() -> Option<PathBuf> {
    let is_native = env::var("HOST").ok()? == env::var("TARGET").ok()?;
    if !is_native && env::var_os("PKG_CONFIG_LIBDIR").is_none() {
        return None;
    }
    let asked = Command::new("pkg-config").args(["--variable=libdir", "cupdaisy >= 0.3.0"]).output().ok()?;
    let folder = String::from_utf8(asked.stdout).ok()?;
    let inside = env::var("PKG_CONFIG_SYSROOT_DIR").unwrap_or_default();
    (asked.status.success() && !folder.trim().is_empty()).then(|| PathBuf::from(inside + folder.trim()))
}

/// The folder in which `make` puts the library.
fn built() -> Option<PathBuf> {
    let folder = Path::new(&env::var_os("CARGO_MANIFEST_DIR")?).join("../../build");
    folder.join("libcupdaisy.a").exists().then_some(folder)
}
