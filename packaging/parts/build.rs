//! Finds libzvt in the folder that the variable ZVT_LIB names, or by pkg-config.
use std::env;
use std::process::{exit, Command};

fn main() {
    println!("cargo:rerun-if-env-changed=ZVT_LIB");
    println!("cargo:rerun-if-env-changed=PKG_CONFIG_PATH");
    match env::var("ZVT_LIB").ok().or_else(by_pkg_config) {
        Some(folder) => {
            println!("cargo:rustc-link-search=native={folder}");
            println!("cargo:rustc-link-lib=dylib=zvt");
            println!("cargo:lib={folder}");
        }
        None => {
            eprintln!("zvt: libzvt was not found. Install the package libzvt-dev, or set ZVT_LIB to the folder of libzvt.so");
            exit(1);
        }
    }
}

fn by_pkg_config() -> Option<String> {
    let said = Command::new("pkg-config").args(["--variable=libdir", "zvt"]).output().ok()?;
    let folder = String::from_utf8(said.stdout).ok()?;
    (said.status.success() && !folder.trim().is_empty()).then(|| folder.trim().to_string())
}
