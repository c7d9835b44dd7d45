//! Links the static library: that of the folder `VORXINDAK_LIB_DIR`, of pkg-config, or of this repository's `./library`.
use std::env;
use std::path::{Path, PathBuf};
use std::process::Command;

fn from_pkg_config() -> Option<PathBuf> {
    let asked = Command::new("pkg-config")
        .args(["--variable=libdir", "vorxindak"])
        .output()
        .ok()?;
    let folder = String::from_utf8(asked.stdout).ok()?;
    (asked.status.success() && !folder.trim().is_empty()).then(|| PathBuf::from(folder.trim()))
}

fn main() {
    println!("cargo:rerun-if-env-changed=VORXINDAK_LIB_DIR");
    let here = env::var("CARGO_MANIFEST_DIR").expect("cargo sets it");
    let own = Path::new(&here).join("../../out/lib");
    let folder = env::var("VORXINDAK_LIB_DIR")
        .map(PathBuf::from)
        .ok()
        .or_else(from_pkg_config)
        .unwrap_or(own);
    println!(
        "cargo:rerun-if-changed={}",
        folder.join("libvorxindak.a").display()
    );
    println!("cargo:rustc-link-search=native={}", folder.display());
    println!("cargo:rustc-link-lib=static=vorxindak");
}
