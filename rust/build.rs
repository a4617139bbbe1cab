//! Links the proved library: `libyaml_c.a`, and `liblibc_c.a` of the toolchain that it was proved with.

use std::path::{Path, PathBuf};
use std::process::{exit, Command};

// The folder of the toolchain's C library, as the toolchain's own command tells it.
fn toolchain() -> Option<PathBuf> {
    let told = Command::new("rt").arg("doc").output().ok()?;
    let page = String::from_utf8(told.stdout).ok()?;
    let page = page.lines().map(Path::new).find(|line| line.is_absolute())?;
    Some(page.parent()?.join("c"))
}

fn missing(what: &str) -> ! {
    eprintln!("panelhemp-yaml: {what}");
    exit(1)
}

fn main() {
    println!("cargo:rerun-if-env-changed=YAML_C_DIR");
    println!("cargo:rerun-if-changed=build.rs");
    let given = std::env::var_os("YAML_C_DIR").map(PathBuf::from);
    let folder = given.clone().unwrap_or_else(|| {
        let here = std::env::var_os("CARGO_MANIFEST_DIR").map(PathBuf::from).unwrap_or_default();
        here.join("../crates/yaml_c/out")
    });
    let archive = folder.join("libyaml_c.a");
    if !archive.is_file() {
        missing(&format!(
            "{} is missing: build it by `rt lib` in crates/yaml_c, or name its folder by YAML_C_DIR.",
            archive.display()
        ));
    }
    let beside = [Some(folder.clone()), toolchain()];
    let Some(libc) = beside.iter().flatten().map(|folder| folder.join("liblibc_c.a")).find(|file| file.is_file())
    else {
        missing(&format!(
            "liblibc_c.a is missing: put the toolchain's, which lies in the folder c beside the page that `rt doc` \
             names, into {}.",
            folder.display()
        ));
    };
    for (name, file) in [("yaml_c", &archive), ("libc_c", &libc)] {
        println!("cargo:rerun-if-changed={}", file.display());
        println!("cargo:rustc-link-search=native={}", file.parent().unwrap_or(&folder).display());
        println!("cargo:rustc-link-lib=static={name}");
    }
}
