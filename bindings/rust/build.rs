// Links the library that has the crate's name, as NAME is lrc_store:
//
// - from the folder that LRC_STORE_DIR names, or LRC_LIBRARIES for the libraries of all crates;
// - or else from the crate's own folder, where a packed crate has it;
// - or else from where pkg-config says that it is installed;
// - or else from where tools/libraries.py leaves it in a clone.
//
// It takes the static library of that folder. If there is none, it takes the shared one, and the
// programs of this crate look for it there.

use std::env;
use std::path::Path;
use std::process::{exit, Command};

fn variable(name: &str) -> Option<String> {
    println!("cargo:rerun-if-env-changed={name}");
    env::var(name).ok().filter(|value| !value.is_empty())
}

/// The folder of the installed library.
fn installed(name: &str) -> Option<String> {
    variable("PKG_CONFIG_PATH");
    let command = variable("PKG_CONFIG").unwrap_or_else(|| "pkg-config".to_string());
    let ran = Command::new(command)
        .args(["--variable=libdir", name])
        .output()
        .ok()?;
    let folder = String::from_utf8(ran.stdout).ok()?.trim().to_string();
    (ran.status.success() && !folder.is_empty()).then_some(folder)
}

/// The crate's own folder, if the library is there.
fn packed(folder: &str, name: &str) -> Option<String> {
    let has = Path::new(folder).join(format!("lib{name}.a")).exists();
    has.then(|| folder.to_string())
}

fn main() {
    let name = env::var("CARGO_PKG_NAME").expect("cargo sets it");
    let own = format!("{}_DIR", name.to_uppercase());
    let here = env!("CARGO_MANIFEST_DIR");
    let folder = variable(&own)
        .or_else(|| variable("LRC_LIBRARIES"))
        .or_else(|| packed(here, &name))
        .or_else(|| installed(&name))
        .unwrap_or_else(|| format!("{here}/../../built"));
    let has = |file: String| {
        let path = Path::new(&folder).join(file);
        println!("cargo:rerun-if-changed={}", path.display());
        path.exists()
    };
    let kind = if has(format!("lib{name}.a")) {
        "static"
    } else if has(format!("lib{name}.so")) {
        println!("cargo:rustc-link-arg=-Wl,-rpath,{folder}");
        "dylib"
    } else {
        eprintln!("no lib{name}.a or lib{name}.so in {folder}: build it by tools/libraries.py,");
        eprintln!("or set {own} to its folder, or PKG_CONFIG_PATH to that of {name}.pc");
        exit(1);
    };
    println!("cargo:rustc-link-search=native={folder}");
    println!("cargo:rustc-link-lib={kind}={name}");
    println!("cargo:libdir={folder}");
}
