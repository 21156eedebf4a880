//! Links libengine.a from the folder that the environment variable TRISCULAP_LIB names.

fn main() {
    println!("cargo:rerun-if-env-changed=TRISCULAP_LIB");
    let folder = std::env::var("TRISCULAP_LIB").expect("TRISCULAP_LIB: the folder of libengine.a");
    println!("cargo:rerun-if-changed={folder}/libengine.a");
    println!("cargo:rustc-link-search=native={folder}");
    println!("cargo:rustc-link-lib=static=engine");
}
