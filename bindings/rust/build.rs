//! Finds the library: in the folder `MORVEZIN_LIB_DIR`, in this repository, or by `pkg-config`.

use std::env;
use std::path::{Path, PathBuf};
use std::process::Command;

/// Where the repository has the library once it is built.
const IN_REPOSITORY: &str = "../../crates/morvezin/out";

fn main() {
    println!("cargo::rerun-if-env-changed=MORVEZIN_LIB_DIR");
    println!("cargo::rerun-if-env-changed=MORVEZIN_LINK");
    let is_shared = env::var("MORVEZIN_LINK").is_ok_and(|link| link == "dylib");
    let (kind, file) = if is_shared {
        ("dylib", "libmorvezin.so")
    } else {
        ("static", "libmorvezin.a")
    };
    let folder = named_folder()
        .or_else(|| folder_in_repository(file))
        .or_else(installed_folder)
        .expect("libmorvezin isn't found: MORVEZIN_LIB_DIR names its folder");
    println!("cargo::rerun-if-changed={}", folder.join(file).display());
    println!("cargo::rustc-link-search=native={}", folder.display());
    println!("cargo::rustc-link-lib={kind}=morvezin");
}

fn named_folder() -> Option<PathBuf> {
    env::var_os("MORVEZIN_LIB_DIR").map(PathBuf::from)
}

fn installed_folder() -> Option<PathBuf> {
    let told = Command::new("pkg-config")
        .args(["--variable=libdir", "morvezin"])
        .output()
        .ok()?;
    let text = String::from_utf8(told.stdout).ok()?;
    let is_told = told.status.success() && !text.trim().is_empty();
    is_told.then(|| PathBuf::from(text.trim()))
}

fn folder_in_repository(file: &str) -> Option<PathBuf> {
    let folder = Path::new(env!("CARGO_MANIFEST_DIR")).join(IN_REPOSITORY);
    folder.join(file).exists().then_some(folder)
}
