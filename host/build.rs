//! Tells cargo where to find the static library, which `tools/build host_c` writes.

fn main() {
    let folder = format!("{}/../target/staticlib", env!("CARGO_MANIFEST_DIR"));
    let library = format!("{folder}/libhost.a");
    println!("cargo:rustc-link-search=native={folder}");
    println!("cargo:rerun-if-changed={library}");
    if !std::path::Path::new(&library).exists() {
        println!("cargo:warning=there is no {library}; `tools/build host_c` writes it");
    }
}
