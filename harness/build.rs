//! Links the static library, whose folder TBAUNARITH_LIB names.
fn main() {
    let folder = std::env::var("TBAUNARITH_LIB").expect("TBAUNARITH_LIB: the folder with libcabi.a");
    println!("cargo:rustc-link-search=native={folder}");
    println!("cargo:rerun-if-env-changed=TBAUNARITH_LIB");
    println!("cargo:rerun-if-changed={folder}/libcabi.a");
}
