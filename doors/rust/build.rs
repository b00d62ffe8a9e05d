//! Links `libgotymbe.a`, which `doors/build` makes, from the folder in GOTYMBE_LIBRARY_FOLDER, and else `doors/out`.

fn main() {
    println!("cargo:rerun-if-env-changed=GOTYMBE_LIBRARY_FOLDER");
    let folder = std::env::var("GOTYMBE_LIBRARY_FOLDER")
        .unwrap_or_else(|_| format!("{}/../out", std::env::var("CARGO_MANIFEST_DIR").unwrap()));
    println!("cargo:rerun-if-changed={folder}/libgotymbe.a");
    println!("cargo:rustc-link-search=native={folder}");
    println!("cargo:rustc-link-lib=static=gotymbe");
}
