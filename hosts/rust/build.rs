//! Links the proved call, which `rt lib` in crates/capi writes to crates/capi/out/libcapi.a; `SKYCORBEL_LIBRARY` names
//! another folder that has it.

fn main() {
    let root = std::path::Path::new(env!("CARGO_MANIFEST_DIR")).join("../..");
    let library = std::env::var("SKYCORBEL_LIBRARY").map_or(root.join("crates/capi/out"), Into::into);
    println!("cargo:rustc-link-search=native={}", library.display());
    println!("cargo:rustc-link-lib=static=capi");
    println!("cargo:rerun-if-env-changed=SKYCORBEL_LIBRARY");
    println!("cargo:rerun-if-changed={}", library.join("libcapi.a").display());
}
