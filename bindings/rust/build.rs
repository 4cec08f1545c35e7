//! Links `libpostcopy.a`, which `tools/library` builds, from the folder that `POSTCOPY_LIB_DIR` names.

fn main() {
    println!("cargo:rerun-if-env-changed=POSTCOPY_LIB_DIR");
    if let Ok(folder) = std::env::var("POSTCOPY_LIB_DIR") {
        println!("cargo:rustc-link-search=native={folder}");
        // (cargo does not look at what is linked: without this a program would keep the library of before)
        println!("cargo:rerun-if-changed={folder}/libpostcopy.a");
    }
    println!("cargo:rustc-link-lib=static=postcopy");
}
