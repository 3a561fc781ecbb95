// Says where the proved code is, which `rt lib` writes in crates/pace and in crates/capi. TIDEHINGE_LIB names another folder, for
// both.
fn main() {
    let root = std::env::var("CARGO_MANIFEST_DIR").expect("cargo names the package's folder");
    for library in ["pace", "capi"] {
        let folder = std::env::var("TIDEHINGE_LIB")
            .unwrap_or_else(|_| format!("{root}/../crates/{library}/out"));
        println!("cargo:rustc-link-search=native={folder}");
        println!("cargo:rerun-if-changed={folder}/lib{library}.a");
    }
    println!("cargo:rerun-if-env-changed=TIDEHINGE_LIB");
}
