//! Links the library. CTSIM_LIBRARY names the folder that has libcapi.a.

fn main() {
    println!("cargo:rerun-if-env-changed=CTSIM_LIBRARY");
    let folder = std::env::var("CTSIM_LIBRARY").expect("CTSIM_LIBRARY, the folder of libcapi.a");
    println!("cargo:rerun-if-changed={folder}/libcapi.a");
    println!("cargo:rustc-link-search=native={folder}");
    println!("cargo:rustc-link-lib=static=capi");
}
