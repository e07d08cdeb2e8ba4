//! Links the archive that the crate's `links` names, which `make` writes to `target/staticlib` of the repository.
//! The environment variable `SEARCHROOM_LIB_DIR` names another folder that holds it.

use std::env;
use std::path::{Path, PathBuf};

fn main() {
    let variable = |name| env::var_os(name).map(PathBuf::from);
    let named = variable("SEARCHROOM_LIB_DIR").filter(|named| !named.as_os_str().is_empty());
    println!("cargo::rerun-if-env-changed=SEARCHROOM_LIB_DIR");
    if named.as_ref().is_some_and(|named| named.is_relative()) {
        println!("cargo::rerun-if-env-changed=PWD");
    }
    let package = variable("CARGO_MANIFEST_DIR").expect("cargo names the package's folder");
    let name = env::var("CARGO_MANIFEST_LINKS").expect("a crate with `links`");
    let folders = folders(named.as_deref(), variable("PWD").as_deref(), &package);
    let archive = format!("lib{name}.a");
    let Some(folder) = folders.iter().find(|folder| folder.join(&archive).is_file()) else {
        let tried: Vec<String> = folders.iter().map(|folder| folder.display().to_string()).collect();
        println!(
            "cargo::error=there is no {archive} in {}: run `make target/staticlib/{archive}` at the root of the repository, \
             or name the folder that holds the archive in SEARCHROOM_LIB_DIR",
            tried.join(", nor in ")
        );
        return;
    };
    println!("cargo::rerun-if-changed={}", folder.join(&archive).display());
    println!("cargo::rustc-link-search=native={}", folder.display());
    println!("cargo::rustc-link-lib=static={name}");
}

/// Where the archive may be; the first folder that holds it is taken. Cargo does not say where it was called, so a
/// relative name is taken from the folder that the shell names, else from the workspace, else from the repository.
fn folders(named: Option<&Path>, shell: Option<&Path>, package: &Path) -> Vec<PathBuf> {
    let workspace = package.parent().expect("the package stands in the workspace");
    let root = workspace.parent().expect("the workspace stands in the repository");
    match named {
        None => vec![root.join("target/staticlib")],
        Some(named) if named.is_absolute() => vec![named.to_owned()],
        Some(named) => {
            let shell = shell.filter(|shell| shell.is_absolute());
            let others = [workspace, root].into_iter().filter(|&other| Some(other) != shell);
            shell.into_iter().chain(others).map(|folder| folder.join(named)).collect()
        }
    }
}
