//! Tells the linker where the engine's static library is. `differential`, `bench` and `print` link it.

fn main() {
    println!("cargo:rerun-if-changed=build.rs");
    println!("cargo:rerun-if-env-changed=CQ_LIB_DIR");
    if let Ok(folder) = std::env::var("CQ_LIB_DIR") {
        println!("cargo:rustc-link-search=native={folder}");
        println!("cargo:rerun-if-changed={folder}/libcuyrapaq.a");
    }
}
