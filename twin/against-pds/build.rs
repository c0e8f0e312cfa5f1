//! Links libpds.a from the folder that PDS_LIB_DIR names, by its whole path.
#![forbid(unsafe_code)]
#![deny(warnings)]

fn main() {
    println!("cargo:rerun-if-env-changed=PDS_LIB_DIR");
    let folder = std::env::var("PDS_LIB_DIR").expect("PDS_LIB_DIR names the folder of libpds.a");
    println!("cargo:rerun-if-changed={}/libpds.a", folder);
    println!("cargo:rustc-link-search=native={}", folder);
    println!("cargo:rustc-link-lib=static=pds");
}
