//! Where libhookbarley.a is. In this order: the folder HOOKBARLEY_LIB; target/staticlib of the repository, where tools/archive.sh
//! writes it; where pkg-config finds it (tools/install.sh, or the Debian package libhookbarley-dev).
use std::env::var;
use std::path::Path;
use std::process::Command;

/// The folder that pkg-config names, of this crate's version or a later one that is compatible with it.
fn installed() -> Result<String, String> {
    let least = var("CARGO_PKG_VERSION").unwrap();
    let major: u32 = var("CARGO_PKG_VERSION_MAJOR").unwrap().parse().unwrap();
    let package = format!("hookbarley >= {least} hookbarley < {}", major + 1);
    let program = var("PKG_CONFIG").unwrap_or("pkg-config".into());
    let ask = |words: &[&str]| match Command::new(&program).args(words).output() {
        Ok(said) if said.status.success() => Ok(String::from_utf8_lossy(&said.stdout).trim().to_string()),
        Ok(said) => Err(format!("{program}: {}", String::from_utf8_lossy(&said.stderr).trim())),
        Err(why) => Err(format!("{program}: {why}")),
    };
    ask(&["--print-errors", "--exists", &package])?;
    ask(&["--variable=libdir", "hookbarley"])
}

fn main() {
    for name in ["HOOKBARLEY_LIB", "PKG_CONFIG", "PKG_CONFIG_PATH", "PKG_CONFIG_LIBDIR"] {
        println!("cargo:rerun-if-env-changed={name}");
    }
    let own = format!("{}/../../target/staticlib", var("CARGO_MANIFEST_DIR").unwrap());
    let folder = match var("HOOKBARLEY_LIB") {
        Ok(folder) => folder,
        Err(_) if Path::new(&own).join("libhookbarley.a").exists() => own,
        Err(_) => installed().unwrap_or_else(|why| {
            panic!("no libhookbarley.a: {why}. Install it (tools/install.sh PREFIX), with PREFIX/lib/pkgconfig in PKG_CONFIG_PATH, or name its folder in HOOKBARLEY_LIB")
        }),
    };
    println!("cargo:rustc-link-search=native={folder}");
    println!("cargo:rustc-link-lib=static=hookbarley");
    println!("cargo:rerun-if-changed={folder}/libhookbarley.a");
}
