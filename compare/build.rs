// Says where the proved library is, which `rt lib` writes in crates/capi. TIDEHINGE_LIB names another folder.
fn main() {
    let root = std::env::var("CARGO_MANIFEST_DIR").expect("cargo names the package's folder");
    let folder =
        std::env::var("TIDEHINGE_LIB").unwrap_or_else(|_| format!("{root}/../crates/capi/out"));
    println!("cargo:rustc-link-search=native={folder}");
    println!("cargo:rerun-if-changed={folder}/libcapi.a");
    println!("cargo:rerun-if-env-changed=TIDEHINGE_LIB");
}
