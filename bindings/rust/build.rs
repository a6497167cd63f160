//! Links `libaat.a`: that of the folder `AAT_LIB`, else the one that the linker finds.
fn main() {
    if let Ok(folder) = std::env::var("AAT_LIB") {
        println!("cargo:rustc-link-search=native={folder}");
    }
    println!("cargo:rustc-link-lib=static=aat");
    println!("cargo:rerun-if-env-changed=AAT_LIB");
}
