//! Links libevc.a: that of the folder in the variable EVC_LIBRARY, or the one that `pkg-config` finds.
use std::{env, process::Command};

fn found() -> Option<String> {
    let said = Command::new("pkg-config").args(["--variable=libdir", "evc"]).output().ok()?;
    said.status.success().then(|| String::from_utf8_lossy(&said.stdout).trim().to_string())
}

fn main() {
    println!("cargo::rerun-if-env-changed=EVC_LIBRARY");
    println!("cargo::rerun-if-env-changed=PKG_CONFIG_PATH");
    let folder = env::var("EVC_LIBRARY").ok().or_else(found);
    let folder = folder.expect("libevc.a is not found: install the package of evc, or set EVC_LIBRARY to its folder");
    println!("cargo::rustc-cfg=libevc");
    println!("cargo::rustc-check-cfg=cfg(libevc)");
    println!("cargo::rustc-link-search=native={folder}");
    println!("cargo::rustc-link-lib=static=evc");
}
