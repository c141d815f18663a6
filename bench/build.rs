// Links the static library that examples/library.sh wrote.
fn main() {
    let root = std::env::var("CARGO_MANIFEST_DIR").unwrap() + "/../target/staticlib";
    println!("cargo:rustc-link-search=native={root}");
    println!("cargo:rustc-link-lib=static=ruqzhemil");
    println!("cargo:rerun-if-changed={root}/libruqzhemil.a");
}
