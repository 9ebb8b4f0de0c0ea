//! Links the proved static libraries: PROVED_LIB is the folder that has them, PROVED_NAMES their names with a blank between.
fn main() {
    for name in ["PROVED_LIB", "PROVED_NAMES"] {
        println!("cargo:rerun-if-env-changed={name}");
    }
    let folder = std::env::var("PROVED_LIB").expect("PROVED_LIB");
    let names = std::env::var("PROVED_NAMES").expect("PROVED_NAMES");
    println!("cargo:rustc-link-search=native={folder}");
    for name in names.split_whitespace() {
        println!("cargo:rustc-link-lib=static={name}");
        println!("cargo:rerun-if-changed={folder}/lib{name}.a");
    }
}
