//! Finds the C library: in the folder that RECFILE_PREFIX names, as ./install was given it, or else by pkg-config.
use std::env;
use std::process::{exit, Command};

const MAJOR: &str = "1";

fn fail(text: &str) -> ! {
    eprintln!("recfile: {text}");
    exit(1);
}

fn pkg_config(word: &str) -> String {
    match Command::new("pkg-config").args([word, "recfile"]).output() {
        Ok(out) if out.status.success() => String::from_utf8_lossy(&out.stdout).trim().to_string(),
        _ => {
            fail("the C library isn't there: set RECFILE_PREFIX to its folder, or PKG_CONFIG_PATH to its lib/pkgconfig")
        }
    }
}

fn library_folder() -> String {
    if let Ok(prefix) = env::var("RECFILE_PREFIX") {
        return format!("{prefix}/lib");
    }
    let version = pkg_config("--modversion");
    if version.split('.').next() != Some(MAJOR) {
        fail(&format!("the C library has the version {version}, and {MAJOR} is needed"));
    }
    pkg_config("--variable=libdir")
}

fn main() {
    for name in ["RECFILE_PREFIX", "PKG_CONFIG_PATH"] {
        println!("cargo:rerun-if-env-changed={name}");
    }
    println!("cargo:rerun-if-changed=build.rs");
    let kind = if env::var_os("CARGO_FEATURE_DYNAMIC").is_some() { "dylib" } else { "static" };
    println!("cargo:rustc-link-search=native={}", library_folder());
    println!("cargo:rustc-link-lib={kind}=recfile");
}
