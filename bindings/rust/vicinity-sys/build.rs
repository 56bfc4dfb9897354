//! Links libvicinity: the archive in the folder that VICINITY_LIB names, or the installed library.

fn main() {
    println!("cargo:rerun-if-env-changed=VICINITY_LIB");
    match std::env::var("VICINITY_LIB") {
        Ok(folder) => {
            println!("cargo:rustc-link-search=native={folder}");
            println!("cargo:rustc-link-lib=static=vicinity");
            println!("cargo:rerun-if-changed={folder}/libvicinity.a");
        }
        Err(_) => println!("cargo:rustc-link-lib=vicinity"),
    }
}
