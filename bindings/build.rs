//! Links libgate.a: from the folder GATE_LIB_DIR, or else from target/staticlib of the repository.

fn main() {
    let folder = std::env::var("GATE_LIB_DIR")
        .unwrap_or_else(|_| concat!(env!("CARGO_MANIFEST_DIR"), "/../target/staticlib").to_string());
    println!("cargo:rustc-link-search=native={folder}");
    println!("cargo:rustc-link-lib=static=gate");
    println!("cargo:rerun-if-env-changed=GATE_LIB_DIR");
    println!("cargo:rerun-if-changed={folder}/libgate.a");
}
