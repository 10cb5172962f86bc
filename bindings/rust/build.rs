//! The library is looked for where ROTHELDUF_LIB says, and else where the linker looks.
fn main() {
    println!("cargo:rerun-if-env-changed=ROTHELDUF_LIB");
    if let Ok(folder) = std::env::var("ROTHELDUF_LIB") {
        println!("cargo:rustc-link-search=native={folder}");
    }
    println!("cargo:rustc-link-lib=static=rothelduf_c");
}
