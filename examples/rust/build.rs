//! Finds the installed library and links it: below `FACING_DIR`, the PREFIX of tools/install; in `FACING_LIBS`, the folder of
//! libfacing.a; as pkg-config knows it; or in the system's folders. Without it the crate can be checked and documented, but
//! not linked.
use std::env;
use std::path::{Path, PathBuf};
use std::process::Command;

fn main() {
    for name in ["FACING_DIR", "FACING_LIBS", "PKG_CONFIG_PATH"] {
        println!("cargo:rerun-if-env-changed={name}");
    }
    match places().iter().find(|it| it.join("libfacing.a").exists()) {
        Some(folder) => println!("cargo:rustc-link-search=native={}", folder.display()),
        None => println!(
            "cargo:warning=facing: libfacing.a was not found. Install it with tools/install PREFIX and set FACING_DIR to \
             PREFIX, or install the package libfacing-dev."
        ),
    }
    println!("cargo:rustc-link-lib=static=facing");
}

/// The folders that may have the library: those that a variable names, and else the installed ones.
fn places() -> Vec<PathBuf> {
    if let Some(prefix) = env::var_os("FACING_DIR") {
        return below(Path::new(&prefix));
    }
    if let Some(folder) = env::var_os("FACING_LIBS") {
        return vec![folder.into()];
    }
    let system = ["/usr/local", "/usr"].into_iter().flat_map(|it| below(Path::new(it)));
    installed().into_iter().chain(system).collect()
}

/// The folders of libraries below a prefix.
fn below(prefix: &Path) -> Vec<PathBuf> {
    ["lib", "lib/x86_64-linux-gnu", "lib64"].iter().map(|it| prefix.join(it)).collect()
}

/// The library's folder, as pkg-config knows it.
fn installed() -> Option<PathBuf> {
    let told = Command::new("pkg-config").args(["--variable=libdir", "facing"]).output().ok()?;
    let folder = String::from_utf8(told.stdout).ok()?.trim().to_owned();
    (told.status.success() && !folder.is_empty()).then(|| folder.into())
}
