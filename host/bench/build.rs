//! Compiles what stands between the driver and the tables that a user might pick instead.

use std::path::Path;

use ragansils_foreign::Library;

fn main() {
    println!("cargo:rerun-if-changed=c");
    let include = Path::new("c");
    let in_c = ["c/lmdb.c", "c/uthash.c", "c/earlier.c"];
    Library { name: "peers_in_c", compiler: "cc -std=c11 -O3", sources: &in_c, include }.build();
    let in_cpp = ["c/cuckoo.cc"];
    Library { name: "peers_in_cpp", compiler: "c++ -std=c++17 -O3", sources: &in_cpp, include }.build();
    println!("cargo:rustc-link-lib=lmdb");
    println!("cargo:rustc-link-lib=stdc++");
}
