//! Links libvaultsorrel.a, from the folder that VAULTSORREL_LIB names.
fn main() {
    println!("cargo:rerun-if-env-changed=VAULTSORREL_LIB");
    let folder = std::env::var("VAULTSORREL_LIB").expect("set VAULTSORREL_LIB to the folder of libvaultsorrel.a");
    println!("cargo:rerun-if-changed={folder}/libvaultsorrel.a");
    println!("cargo:rustc-link-search=native={folder}");
    println!("cargo:rustc-link-lib=static=vaultsorrel");
}
