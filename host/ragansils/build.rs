//! Links the proved static library: libcollector.a, from where `rt lib` in crates/collector writes it
//! or from the folder that RAGANSILS_LIB names.

use std::path::{Path, PathBuf};
use std::process::exit;

fn main() {
    // The linker would only say that it does not know the format of the library.
    let processor = std::env::var("CARGO_CFG_TARGET_ARCH").expect("cargo names the processor");
    if processor != "x86_64" {
        stop(&format!("this builds for {processor}, but libcollector.a links into x86-64 programs only; './x86-64 cargo ..' builds these"));
    }
    println!("cargo:rerun-if-env-changed=RAGANSILS_LIB");
    let top = Path::new(env!("CARGO_MANIFEST_DIR"))
        .ancestors()
        .nth(2)
        .expect("this crate stands in host/ragansils");
    let folder = std::env::var_os("RAGANSILS_LIB").map_or(top.join("crates/collector/out"), PathBuf::from);
    let library = folder.join("libcollector.a");
    // A relative path would be looked up from this crate's folder, which is seldom meant.
    if !library.is_absolute() {
        stop(&format!(
            "RAGANSILS_LIB must name the folder by its whole path, from / on, and not as {}",
            folder.display()
        ));
    }
    if !library.is_file() {
        stop(&missing(&library));
    }
    // Without this a rebuilt library would not be linked again.
    println!("cargo:rerun-if-changed={}", library.display());
    println!("cargo:rustc-link-search=native={}", folder.display());
    println!("cargo:rustc-link-lib=static=collector");
}

fn missing(library: &Path) -> String {
    format!(
        "the proved library is missing. There is no {}. Run 'rt lib' in crates/collector of Ragansils, which proves and \
         writes it in some minutes; or let RAGANSILS_LIB name the folder of a libcollector.a",
        library.display()
    )
}

/// Ends the build with a sentence; a panic would bury it.
fn stop(message: &str) -> ! {
    eprintln!("ragansils: {message}");
    exit(1)
}
