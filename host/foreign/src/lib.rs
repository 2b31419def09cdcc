//! For build scripts: compiles C and C++ into static libraries, with no other package. What is compiled stays behind a
//! library's boundary, as the proved library does.

use std::ffi::OsString;
use std::path::{Path, PathBuf};
use std::process::Command;

/// The warnings that no source may give.
const WARNINGS: [&str; 4] = ["-Wall", "-Wextra", "-Werror", "-fPIC"];

/// A static library to be made of some sources.
pub struct Library<'a> {
    pub name: &'a str,
    /// A compiler with its options, in words.
    pub compiler: &'a str,
    pub sources: &'a [&'a str],
    pub include: &'a Path,
}

impl Library<'_> {
    /// Compiles the sources, archives them where cargo wants it, and has cargo link the archive.
    pub fn build(&self) {
        let folder = PathBuf::from(std::env::var_os("OUT_DIR").expect("cargo sets OUT_DIR"));
        let objects: Vec<PathBuf> = self.sources.iter().map(|source| self.compile(source, &folder)).collect();
        let archive = folder.join(format!("lib{}.a", self.name));
        // An archive keeps the objects of an earlier run otherwise.
        let _ = std::fs::remove_file(&archive);
        run(Command::new("ar").arg("crs").arg(&archive).args(&objects));
        println!("cargo:rustc-link-search=native={}", folder.display());
        println!("cargo:rustc-link-lib=static={}", self.name);
    }

    fn compile(&self, source: &str, folder: &Path) -> PathBuf {
        println!("cargo:rerun-if-changed={source}");
        let mut object_name = OsString::from(Path::new(source).file_name().expect("a source is a file"));
        object_name.push(".o");
        let object = folder.join(object_name);
        let mut words = self.compiler.split_whitespace();
        let mut command = Command::new(words.next().expect("a compiler is named"));
        command.args(words).args(WARNINGS).arg("-I").arg(self.include);
        run(command.arg("-c").arg(source).arg("-o").arg(&object));
        object
    }
}

/// Runs a command, and ends the build with a sentence where it fails; a panic would bury it.
fn run(command: &mut Command) {
    let what = match command.status() {
        Ok(status) if status.success() => return,
        Ok(status) => format!("ended with {status}"),
        Err(error) => format!("could not be run: {error}. Compilers of C and C++ and 'ar' must be installed"),
    };
    eprintln!("{command:?} {what}");
    std::process::exit(1)
}
