//! Tells the linker where the proved library stands: `TCA_LIB_DIR`, or target/native of the repository.

use std::path::{Path, PathBuf};

fn main() {
    println!("cargo::rerun-if-changed=build.rs");
    println!("cargo::rerun-if-env-changed=TCA_LIB_DIR");
    let here = PathBuf::from(std::env::var_os("CARGO_MANIFEST_DIR").expect("cargo names the crate's folder"));
    let given = std::env::var_os("TCA_LIB_DIR");
    let folder = here.join(given.as_deref().map_or(Path::new("../../target/native"), Path::new));
    let archive = folder.join("libtca.a");
    println!("cargo::rerun-if-changed={}", archive.display());
    if archive.is_file() {
        println!("cargo::rustc-link-search=native={}", folder.display());
        println!("cargo::rustc-link-lib=static=tca");
    } else {
        let advice = match given {
            Some(_) => "TCA_LIB_DIR must name the folder of libtca.a",
            None => "make it with `tools/native-staticlib tca`, or name the folder of libtca.a in TCA_LIB_DIR",
        };
        println!("cargo::error=there is no {}: {advice}", archive.display());
    }
}
