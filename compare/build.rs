//! Links the proved code when `compare/staticlib` has made it, and says so by the cfg `port`.
//! Without the library everything still builds; then only judge and yardstick are compared.
use std::path::Path;

fn main() {
    println!("cargo::rustc-check-cfg=cfg(port)");
    let folder = Path::new(env!("CARGO_MANIFEST_DIR")).join("../target/staticlib");
    let library = folder.join("libport.a");
    println!("cargo::rerun-if-changed={}", library.display());
    println!("cargo::rerun-if-changed=build.rs");
    if library.exists() {
        println!("cargo::rustc-cfg=port");
        println!("cargo::rustc-link-search=native={}", folder.display());
        println!("cargo::rustc-link-lib=static=port");
    }
}
