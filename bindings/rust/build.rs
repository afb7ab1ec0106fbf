//! Compiles the portable C library, c/gob.c; or links the libgob.a of the folder that GOB_LIB_DIR names, which is
//! faster, and for x86-64 Linux alone.

use std::env;

fn main() {
    println!("cargo:rerun-if-env-changed=GOB_LIB_DIR");
    match env::var("GOB_LIB_DIR") {
        Ok(folder) => link(&folder),
        Err(_) => compile(),
    }
}

fn link(folder: &str) {
    println!("cargo:rerun-if-changed={folder}/libgob.a");
    println!("cargo:rustc-link-search=native={folder}");
    println!("cargo:rustc-link-lib=static=gob");
}

fn compile() {
    println!("cargo:rerun-if-changed=c");
    // (more takes the compiler several times as long, and the code is no faster)
    cc::Build::new().file("c/gob.c").include("c").opt_level(1).compile("gob");
}
