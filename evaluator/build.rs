//! Tells the linker where the proved library stands, when the feature `library` asks for it.

fn main() {
    println!("cargo:rerun-if-changed=build.rs");
    println!("cargo:rerun-if-env-changed=TCA_LIB_DIR");
    if std::env::var_os("CARGO_FEATURE_LIBRARY").is_some() {
        if let Ok(dir) = std::env::var("TCA_LIB_DIR") {
            println!("cargo:rustc-link-search=native={dir}");
            // A new archive is linked anew.
            println!("cargo:rerun-if-changed={dir}/libtca.a");
        }
        println!("cargo:rustc-link-lib=static=tca");
    }
}
