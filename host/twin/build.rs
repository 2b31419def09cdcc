//! Compiles the twin. RAGANSILS_TWIN_CC names the compiler with its options.

use std::path::Path;

use ragansils_foreign::Library;

const USUAL_COMPILER: &str = "cc -O3";

fn main() {
    println!("cargo:rerun-if-env-changed=RAGANSILS_TWIN_CC");
    println!("cargo:rerun-if-changed=c");
    let compiler = std::env::var("RAGANSILS_TWIN_CC").unwrap_or_else(|_| USUAL_COMPILER.to_string());
    println!("cargo:rustc-env=RAGANSILS_TWIN_CC={compiler}");
    Library {
        name: "twin",
        compiler: &format!("{compiler} -std=c11 -pedantic"),
        sources: &["c/changes.c", "c/listing.c", "c/placing.c", "c/recovery.c", "c/resizing.c"],
        include: Path::new("../../include"),
    }
    .build();
}
