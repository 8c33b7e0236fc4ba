//! The page's way without a registry: with the empty crate in nix's place cargo finds all that a tracer's crate asks
//! for.

use std::path::{Path, PathBuf};
use std::process::Command;

const MANIFEST: &str = r#"
[package]
name = "without_a_registry"
version = "0.1.0"
edition = "2024"

[dependencies]
nix = { version = "0.30", features = ["ptrace", "process", "signal"] }

[workspace]
"#;

/// What the page has `.cargo/config.toml` be.
const CONFIG: &str = r#"[net]
offline = true

[patch.crates-io]
nix = { path = "/path/to/pukzarn/bindings/nix_stub" }
"#;

/// Runs cargo in the folder of a crate that needs nix, and fails where it cannot find all that the crate asks for.
fn resolves(folder: &Path, options: &[&str]) {
    let mut command = Command::new(env!("CARGO"));
    command.current_dir(folder).env_remove("CARGO_NET_OFFLINE").args(options);
    let output = command.args(["metadata", "--format-version", "1"]).output().expect("cargo runs");
    assert!(output.status.success(), "{}", String::from_utf8_lossy(&output.stderr));
}

fn crate_that_needs_nix(name: &str) -> PathBuf {
    let folder = Path::new(env!("CARGO_TARGET_TMPDIR")).join(name);
    // Of a run before this one, a Cargo.lock may be left.
    drop(std::fs::remove_dir_all(&folder));
    std::fs::create_dir_all(folder.join("src")).expect("a folder");
    std::fs::write(folder.join("Cargo.toml"), MANIFEST).expect("its Cargo.toml");
    std::fs::write(folder.join("src/lib.rs"), "").expect("its library");
    folder
}

fn checkout() -> String {
    format!("{}/../..", env!("CARGO_MANIFEST_DIR"))
}

#[test]
fn a_crate_that_needs_nix_is_resolved_without_a_registry() {
    crate::page_has(crate::PAGE, CONFIG);
    let folder = crate_that_needs_nix("without_a_registry");
    std::fs::create_dir_all(folder.join(".cargo")).expect("a folder");
    let config = CONFIG.replace("/path/to/pukzarn", &checkout());
    std::fs::write(folder.join(".cargo/config.toml"), config).expect("its configuration");
    resolves(&folder, &[]);
}

#[test]
fn it_is_resolved_by_one_command_too() {
    let patch = |place: &str| format!("patch.crates-io.nix.path=\"{place}/bindings/nix_stub\"");
    crate::page_has(crate::PAGE, &format!("`cargo --offline --config '{}' test --lib`", patch("/path/to/pukzarn")));
    resolves(&crate_that_needs_nix("by_one_command"), &["--offline", "--config", &patch(&checkout())]);
}
