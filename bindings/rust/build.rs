//! Finds the static library: in the folder that REDIS_C_LIBRARY_DIR names, else in the one that pkg-config says.
use std::env;
use std::path::PathBuf;
use std::process::Command;

const VARIABLE: &str = "REDIS_C_LIBRARY_DIR";

/// The folder that pkg-config knows; an empty path if it knows none.
fn installed() -> PathBuf {
    let asked = Command::new("pkg-config").args(["--variable=libdir", "redis_c"]).output();
    asked.map(|said| PathBuf::from(String::from_utf8_lossy(&said.stdout).trim())).unwrap_or_default()
}

fn main() {
    println!("cargo:rerun-if-env-changed={VARIABLE}");
    println!("cargo:rerun-if-env-changed=PKG_CONFIG_PATH");
    let folder = env::var_os(VARIABLE).map_or_else(installed, PathBuf::from);
    let library = folder.join("libredis_c.a");
    if !library.is_file() {
        eprintln!("no libredis_c.a: set {VARIABLE} to its folder, or PKG_CONFIG_PATH to that of redis_c.pc");
        std::process::exit(1);
    }
    println!("cargo:rerun-if-changed={}", library.display());
    println!("cargo:rustc-link-search=native={}", folder.display());
    println!("cargo:rustc-link-lib=static=redis_c");
}
