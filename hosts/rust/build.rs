//! Links the proved archive, which stands in the repository's target/ once `tools/archive` was run there.
use std::env;
use std::path::Path;
use std::process::exit;

fn stop(why: &str) -> ! {
    eprintln!("error: {why}");
    exit(1);
}

fn main() {
    let target = env::var("TARGET").unwrap_or_default();
    if !(target.starts_with("x86_64-") && target.contains("-linux-")) {
        stop(&format!(
            "libdocket_host.a has code for x86-64 Linux, not for {target}"
        ));
    }
    let package = env::var("CARGO_MANIFEST_DIR").unwrap_or_else(|_| stop("cargo runs this script"));
    let Ok(repository) = Path::new(&package).join("../..").canonicalize() else {
        stop("this package stands in hosts/rust of the docket's repository");
    };
    let folder = repository.join("target/staticlib");
    let archive = folder.join("libdocket_host.a");
    println!("cargo:rerun-if-changed={}", archive.display());
    if !archive.is_file() {
        stop(&format!(
            "no {}: run 'tools/archive' in {}",
            archive.display(),
            repository.display()
        ));
    }
    println!("cargo:rustc-link-search=native={}", folder.display());
    println!("cargo:rustc-link-lib=static=docket_host");
}
