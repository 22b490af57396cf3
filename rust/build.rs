//! Links the archive: that of this tree, target/staticlib/libpagepool.a, or the one in the folder POOL_ARCHIVES.
//!
//! Fails where it is missing, or where this tree's own is older than a source. An archive elsewhere is its user's own business.
use std::env;
use std::path::{Path, PathBuf};
use std::process::{exit, Command};

fn main() {
    let tree =
        Path::new(concat!(env!("CARGO_MANIFEST_DIR"), "/..")).canonicalize().expect("the package's folder");
    let own = tree.join("target/staticlib");
    let folder = env::var_os("POOL_ARCHIVES").map_or_else(|| own.clone(), PathBuf::from);
    println!("cargo::rerun-if-env-changed=POOL_ARCHIVES");
    println!("cargo::rerun-if-changed={}", folder.join("libpagepool.a").display());
    if is_same(&folder, &own) {
        check_own(&tree);
    } else if !folder.join("libpagepool.a").is_file() {
        fail(&format!("POOL_ARCHIVES, {}, has no libpagepool.a", folder.display()));
    }
    println!("cargo::rustc-link-search=native={}", folder.display());
    println!("cargo::rustc-link-lib=static=pagepool");
}

/// Whether two paths lead to the same folder, which need not be there yet.
fn is_same(a: &Path, b: &Path) -> bool {
    a == b || matches!((a.canonicalize(), b.canonicalize()), (Ok(a), Ok(b)) if a == b)
}

/// Asks the tree's script, again after each edit of a source.
fn check_own(tree: &Path) {
    for source in ["archive", "crates", "crates.txt"] {
        println!("cargo::rerun-if-changed={}", tree.join(source).display());
    }
    match Command::new(tree.join("archive")).arg("--check").output() {
        Ok(check) if check.status.success() => (),
        Ok(check) => fail(&String::from_utf8_lossy(&check.stderr)),
        Err(error) => {
            fail(&format!("no script archive, {error}; POOL_ARCHIVES names a folder with an archive"))
        }
    }
}

fn fail(fault: &str) -> ! {
    println!("cargo::error={}", fault.trim_end());
    exit(1);
}
