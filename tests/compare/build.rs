//! The archive stands where `tools/build desk` puts it.

fn main() {
    let root = std::path::Path::new(env!("CARGO_MANIFEST_DIR")).join("../../target/staticlib");
    println!("cargo:rustc-link-search=native={}", root.display());
    println!("cargo:rustc-link-lib=static=desk");
    println!("cargo:rerun-if-changed={}", root.join("libdesk.a").display());
}
