//! Links `libluthgarn.a`: that of the folder that LUTHGARN_FOLDER names, else of ../c, which `make` builds if it isn't there.
use std::path::PathBuf;
use std::process::Command;

fn main() {
    println!("cargo:rerun-if-env-changed=LUTHGARN_FOLDER");
    let folder = match std::env::var_os("LUTHGARN_FOLDER") {
        Some(folder) => PathBuf::from(folder),
        None => {
            let here = PathBuf::from(std::env::var_os("CARGO_MANIFEST_DIR").expect("cargo says where it is"));
            let folder = here.join("../c");
            if !folder.join("libluthgarn.a").exists() {
                let made = Command::new("make").arg("-C").arg(&folder).arg("libluthgarn.a").status();
                assert!(made.is_ok_and(|made| made.success()), "make -C bindings/c builds libluthgarn.a");
            }
            folder
        }
    };
    println!("cargo:rerun-if-changed={}", folder.join("libluthgarn.a").display());
    println!("cargo:rustc-link-search=native={}", folder.display());
    println!("cargo:rustc-link-lib=static=luthgarn");
}
