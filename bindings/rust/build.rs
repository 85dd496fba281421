//! Links libplush.a, which `rt lib` writes in crates/plush, from the folder that PLUSH_LIB_DIR names.
fn main() {
    println!("cargo:rerun-if-env-changed=PLUSH_LIB_DIR");
    let folder =
        std::env::var("PLUSH_LIB_DIR").expect("PLUSH_LIB_DIR: the folder of libplush.a, crates/plush/out of the repository");
    println!("cargo:rerun-if-changed={folder}/libplush.a");
    println!("cargo:rustc-link-search=native={folder}");
    println!("cargo:rustc-link-lib=static=plush");
}
