//! Links the proved library: `libzegbiko.a` in the folder that `ZEGBIKO_LIB_DIR` names, else in `../target/staticlib`.

use std::env;
use std::fs;
use std::os::unix::process::parent_id;
use std::path::{Path, PathBuf};
use std::process::exit;

/// The folder that the library is in. A relative name is meant from the caller's folder.
pub fn directory(named: Option<PathBuf>, caller: Option<PathBuf>) -> Result<PathBuf, &'static str> {
    match (named, caller) {
        (None, _) => Ok(Path::new(env!("CARGO_MANIFEST_DIR")).join("../target/staticlib")),
        (Some(named), _) if named.is_absolute() => Ok(named),
        (Some(named), Some(caller)) => Ok(caller.join(named)),
        (Some(_), None) => {
            Err("the folder in which cargo was called is not known; name the library's folder from / on")
        }
    }
}

/// Where cargo was called: this program runs elsewhere, in the package's folder, and `PWD` is what some shell once said.
fn caller() -> Option<PathBuf> {
    fs::read_link(format!("/proc/{}/cwd", parent_id())).ok()
}

fn fail(complaint: &str) -> ! {
    eprintln!("{complaint}");
    exit(1);
}

fn main() {
    println!("cargo:rerun-if-env-changed=ZEGBIKO_LIB_DIR");
    let named = env::var_os("ZEGBIKO_LIB_DIR").filter(|named| !named.is_empty()).map(PathBuf::from);
    if named.as_ref().is_some_and(|named| named.is_relative()) {
        println!("cargo:rerun-if-changed=no/such/file"); // so this runs each time, since cargo may be called elsewhere
    }
    let said = match &named {
        Some(named) => format!("ZEGBIKO_LIB_DIR is {}: it names the folder of libzegbiko.a", named.display()),
        None => "Make it with `./build library` at the repository's root, or name its folder in ZEGBIKO_LIB_DIR".into(),
    };
    let directory = directory(named, caller()).unwrap_or_else(|complaint| fail(&format!("{said}; {complaint}.")));
    let library = directory.join("libzegbiko.a");
    println!("cargo:rerun-if-changed={}", library.display());
    if !library.is_file() {
        fail(&format!("{} is missing.\n{said}.", library.display()));
    }
    println!("cargo:rustc-link-search=native={}", directory.display());
    println!("cargo:rustc-link-lib=static=zegbiko");
    println!("cargo:rustc-env=ZEGBIKO_LIBRARY={}", library.display());
}
