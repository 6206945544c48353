//! Links the proved library, libbench.a, where it is built. The folder that holds it is given by
//! MALTHOBRE_STATICLIB, or is the repository's target/staticlib.

use std::path::PathBuf;

fn main() {
    println!("cargo::rustc-check-cfg=cfg(proved)");
    println!("cargo::rerun-if-env-changed=MALTHOBRE_STATICLIB");
    let folder = match std::env::var_os("MALTHOBRE_STATICLIB") {
        Some(folder) => PathBuf::from(folder),
        None => PathBuf::from(env!("CARGO_MANIFEST_DIR")).join("../../target/staticlib"),
    };
    let library = folder.join("libbench.a");
    println!("cargo::rerun-if-changed={}", library.display());
    if library.is_file() {
        println!("cargo::rustc-cfg=proved");
        println!("cargo::rustc-link-search=native={}", folder.display());
        println!("cargo::rustc-link-lib=static=bench");
    }
}
