//! Links libcbqri.a from the folder that CBQRI_LIB_DIR names.

fn main() {
    println!("cargo:rerun-if-env-changed=CBQRI_LIB_DIR");
    let folder = std::env::var("CBQRI_LIB_DIR").expect("CBQRI_LIB_DIR, the folder of libcbqri.a");
    println!("cargo:rerun-if-changed={folder}/libcbqri.a");
    println!("cargo:rustc-link-search=native={folder}");
    println!("cargo:rustc-link-lib=static=cbqri");
}
