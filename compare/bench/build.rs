//! Tells cargo where to find the static library, which `tools/build surface_ffi_c`
//! writes.

fn main() {
    let folder = format!("{}/../../target/staticlib", env!("CARGO_MANIFEST_DIR"));
    println!("cargo:rustc-link-search=native={folder}");
    println!("cargo:rerun-if-changed={folder}/libsurface_ffi.a");
}
