//! Finds the static library: in the folder that YAZGULT_LIB_DIR names, else in `lib/TARGET` beside this file, where a released crate has it,
//! or else where pkg-config says that it is.

use std::env;
use std::path::Path;
use std::process::Command;

fn main() {
    println!("cargo:rerun-if-env-changed=YAZGULT_LIB_DIR");
    println!("cargo:rerun-if-env-changed=PKG_CONFIG_PATH");
    let dir = env::var("YAZGULT_LIB_DIR").ok().or_else(own_dir).or_else(asked_dir);
    match dir {
        Some(dir) => {
            println!("cargo:rerun-if-changed={dir}/libyazgult.a");
            println!("cargo:rustc-link-search=native={dir}");
            println!("cargo:rustc-link-lib=static=yazgult");
        }
        None => {
            let target = env::var("TARGET").unwrap_or_default();
            eprintln!(
                "libyazgult.a isn't found for {target}: set YAZGULT_LIB_DIR, or PKG_CONFIG_PATH to where yazgult.pc is"
            );
            std::process::exit(1);
        }
    }
}

/// The crate's own folder for this target, where it has the library.
fn own_dir() -> Option<String> {
    let dir = Path::new(&env::var("CARGO_MANIFEST_DIR").ok()?).join("lib").join(env::var("TARGET").ok()?);
    dir.join("libyazgult.a").is_file().then(|| dir.to_str().map(str::to_owned))?
}

/// The folder that pkg-config names.
fn asked_dir() -> Option<String> {
    let said = Command::new("pkg-config").args(["--variable=libdir", "yazgult"]).output().ok()?;
    let dir = String::from_utf8(said.stdout).ok()?.trim().to_owned();
    (said.status.success() && !dir.is_empty()).then_some(dir)
}
