//! Finds libpds.a: in PDS_LIB_DIR, or where tools/build-lib writes it for the target that is built for.
use std::env;
use std::path::PathBuf;
use std::process::exit;

fn main() {
    println!("cargo:rerun-if-env-changed=PDS_LIB_DIR");
    let target = env::var("TARGET").unwrap_or_default();
    let own = env::var("HOST").map_or(false, |host| host == target);
    let name = if own { "host" } else { &target };
    let folder = match env::var_os("PDS_LIB_DIR") {
        Some(folder) => PathBuf::from(folder),
        None => PathBuf::from(env::var_os("CARGO_MANIFEST_DIR").unwrap_or_default()).join("../target/lib").join(name),
    };
    let library = folder.join("libpds.a");
    if !library.is_file() {
        eprintln!("pds: there is no {}", library.display());
        eprintln!("pds: make it in the repository's root, where the Rattle kit is: tools/build-lib {name}");
        eprintln!("pds: or set PDS_LIB_DIR to the folder of a libpds.a for {target}");
        exit(1);
    }
    println!("cargo:rerun-if-changed={}", library.display());
    println!("cargo:rustc-link-search=native={}", folder.display());
    println!("cargo:rustc-link-lib=static=pds");
}
