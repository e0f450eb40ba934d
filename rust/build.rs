//! Tells Cargo where the proved library is.
//!
//! It looks in the folder that `SAPHYR_PARSER_LIB` names. If that isn't set, it looks where `rt lib` left the library
//! in the repository, and in the release that this crate is a part of. A release has the library as one archive. In the
//! repository there are two: the library, and the kit's small one for requests for memory, which is next to the command
//! `rt`.
//!
//! Without the library it only warns, so that what needs no linking works: `cargo check`, `clippy` and `doc`. It also
//! warns where the target is not Linux on x86-64, for which alone the library is there.

use std::env;
use std::fs::read_link;
use std::os::unix::process::parent_id;
use std::path::{Path, PathBuf};

const VARIABLE: &str = "SAPHYR_PARSER_LIB";
const RELEASED: &str = "libsaphyr_parser.a";
const BUILT: &str = "libsaphyr_parser_c.a";
const OF_THE_KIT: &str = "liblibc_c.a";

fn main() {
    println!("cargo:rerun-if-env-changed={VARIABLE}");
    println!("cargo:rerun-if-env-changed=PATH");
    warn_of_target();
    let folders = folders();
    if let Some(archives) = folders.iter().find_map(|it| archives_of(it)) {
        archives.iter().for_each(|it| link(it));
        return;
    }
    let tried: Vec<String> = folders.iter().map(|it| it.display().to_string()).collect();
    println!(
        "cargo:warning=the proved library, {RELEASED}, or {BUILT} with {OF_THE_KIT} of the kit, is not in {}. \
         Nothing can be linked without it: set {VARIABLE} to the folder `lib` of a release, or run `rt lib` in \
         crates/saphyr_parser_c of the repository",
        tried.join(" nor in ")
    );
    // The compiler says that it can't find this library. Cargo runs this program again, until the file is there.
    println!("cargo:rustc-link-lib=static=saphyr_parser");
    println!("cargo:rerun-if-changed={RELEASED}");
}

/// Warns if the library is not there for the target.
fn warn_of_target() {
    let variable = |name| env::var(name).unwrap_or_default();
    if (
        variable("CARGO_CFG_TARGET_ARCH"),
        variable("CARGO_CFG_TARGET_OS"),
    ) != ("x86_64".into(), "linux".into())
    {
        println!(
            "cargo:warning=the proved library is there for Linux on x86-64 alone, as x86_64-unknown-linux-gnu. \
             Nothing can be linked for {}",
            variable("TARGET")
        );
    }
}

/// The folders to look in.
fn folders() -> Vec<PathBuf> {
    let package = Path::new(env!("CARGO_MANIFEST_DIR"));
    match env::var_os(VARIABLE).filter(|it| !it.is_empty()) {
        Some(named) => vec![where_cargo_runs().join(named)],
        None => vec![
            package.join("../crates/saphyr_parser_c/out"),
            package.join("../../../lib"),
        ],
    }
}

/// The folder in which Cargo was called. This program runs in that of the package.
fn where_cargo_runs() -> PathBuf {
    read_link(format!("/proc/{}/cwd", parent_id())).unwrap_or_default()
}

/// The archives that make up the library, if the folder has it.
fn archives_of(folder: &Path) -> Option<Vec<PathBuf>> {
    let (released, built) = (folder.join(RELEASED), folder.join(BUILT));
    if released.is_file() {
        return Some(vec![released]);
    }
    let of_the_kit = [Some(folder.to_owned()), folder_of_the_kit()]
        .into_iter()
        .flatten()
        .map(|it| it.join(OF_THE_KIT))
        .find(|it| it.is_file())?;
    built.is_file().then(|| vec![built, of_the_kit])
}

/// Links the program with an archive.
fn link(archive: &Path) {
    let (Some(folder), Some(file)) = (archive.parent(), archive.file_stem()) else {
        return;
    };
    let file = file.to_string_lossy();
    println!("cargo:rerun-if-changed={}", archive.display());
    println!("cargo:rustc-link-search=native={}", folder.display());
    println!("cargo:rustc-link-lib=static={}", &file["lib".len()..]);
}

/// The folder `c` of the kit whose command `rt` is on the path.
fn folder_of_the_kit() -> Option<PathBuf> {
    let path = env::var_os("PATH")?;
    let rt = env::split_paths(&path)
        .map(|it| it.join("rt"))
        .find(|it| it.is_file())?;
    Some(rt.canonicalize().ok()?.parent()?.join("../c"))
}
