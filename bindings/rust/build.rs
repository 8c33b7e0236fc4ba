//! Finds `libpukzarn.a`: in `PUKZARN_LIB_DIR`, else by pkg-config, else in the `lib/` of the checkout.

use std::path::{Path, PathBuf};
use std::process::Command;

fn main() {
    println!("cargo::rerun-if-env-changed=PUKZARN_LIB_DIR");
    println!("cargo::rerun-if-env-changed=PKG_CONFIG_PATH");
    // The documentation is built without the archive.
    if std::env::var_os("DOCS_RS").is_some() {
        return;
    }
    let folder = match std::env::var_os("PUKZARN_LIB_DIR") {
        Some(folder) => PathBuf::from(folder),
        None => by_pkg_config().unwrap_or_else(of_checkout),
    };
    let archive = folder.join("libpukzarn.a");
    if !archive.is_file() {
        fail(&format!(
            "{} is not there. Build it with `make library` in the checkout, or set PUKZARN_LIB_DIR to the folder that \
             has libpukzarn.a",
            archive.display()
        ));
    }
    println!("cargo::rerun-if-changed={}", archive.display());
    println!("cargo::rustc-link-search=native={}", folder.display());
    println!("cargo::rustc-link-lib=static=pukzarn");
    // For the build scripts of crates that link the archive themselves: DEP_PUKZARN_LIB_DIR.
    println!("cargo::metadata=LIB_DIR={}", folder.display());
}

/// The folder that pkg-config names, where there is a pukzarn.pc with the archive beside it.
fn by_pkg_config() -> Option<PathBuf> {
    let asked = Command::new("pkg-config").args(["--variable=libdir", "pukzarn"]).output().ok()?;
    let folder = String::from_utf8(asked.stdout).ok()?;
    let folder = Path::new(folder.trim());
    (asked.status.success() && folder.join("libpukzarn.a").is_file()).then(|| folder.to_path_buf())
}

/// `lib/` of the checkout that this crate is in.
fn of_checkout() -> PathBuf {
    let crate_folder = PathBuf::from(std::env::var_os("CARGO_MANIFEST_DIR").expect("cargo sets it"));
    let checkout = crate_folder.join("../..");
    checkout.canonicalize().unwrap_or(checkout).join("lib")
}

fn fail(message: &str) -> ! {
    println!("cargo::error={message}");
    std::process::exit(1)
}
