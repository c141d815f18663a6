// Links the static library: from the folder that RUQZHEMIL_LIB_DIR names, else from where examples/library.sh writes it.
fn main() {
    let own = std::env::var("CARGO_MANIFEST_DIR").unwrap() + "/../target/staticlib";
    let folder = std::env::var("RUQZHEMIL_LIB_DIR").unwrap_or(own);
    println!("cargo:rerun-if-env-changed=RUQZHEMIL_LIB_DIR");
    println!("cargo:rerun-if-changed={folder}/libruqzhemil.a");
    println!("cargo:rustc-link-search=native={folder}");
    println!("cargo:rustc-link-lib=static=ruqzhemil");
}
