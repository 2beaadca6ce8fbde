//! Links the static library, which `tools/library` writes.

fn main() {
    let folder = std::path::Path::new(env!("CARGO_MANIFEST_DIR")).join("../target/staticlib");
    let library = folder.join("libdocket.a");
    println!("cargo:rustc-link-search=native={}", folder.display());
    println!("cargo:rustc-link-lib=static=docket");
    println!("cargo:rerun-if-changed={}", library.display());
}
