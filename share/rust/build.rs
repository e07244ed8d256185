//! Finds the static C library, as `./build --install DIR` puts it: in the folder $ARBITER_LIB, else where pkg-config finds it.
use std::process::Command;

fn main() {
    println!("cargo:rerun-if-env-changed=ARBITER_LIB");
    println!("cargo:rerun-if-env-changed=PKG_CONFIG_PATH");
    let folder = std::env::var("ARBITER_LIB").unwrap_or_else(|_| by_pkg_config());
    println!("cargo:rerun-if-changed={folder}/libarbiter.a");
    println!("cargo:rustc-link-search=native={folder}");
    println!("cargo:rustc-link-lib=static=arbiter");
}

fn by_pkg_config() -> String {
    match Command::new("pkg-config").args(["--variable=libdir", "arbiter"]).output() {
        Ok(said) if said.status.success() => String::from_utf8_lossy(&said.stdout).trim().to_owned(),
        _ => panic!("libarbiter.a is not found: set ARBITER_LIB to its folder, or PKG_CONFIG_PATH to that of arbiter.pc"),
    }
}
