//! Links the proved archive. `VOUMLIS_ARCHIVE` names its folder; else it is the one that `rt lib` left in `crates/simplex_c/out`, or
//! else the one of `dist/`.

use std::{
    env,
    path::{Path, PathBuf},
    process,
};

const ARCHIVE: &str = "libsimplex_c.a";
/// Where it may lie, from the top of the repository.
const FOLDERS: [&str; 2] = ["crates/simplex_c/out", "dist/x86_64-linux"];

fn main() {
    println!("cargo:rerun-if-env-changed=VOUMLIS_ARCHIVE");
    let top = Path::new(env!("CARGO_MANIFEST_DIR")).join("../..");
    let candidates: Vec<PathBuf> = match env::var_os("VOUMLIS_ARCHIVE") {
        Some(named) => vec![PathBuf::from(named)],
        None => FOLDERS.iter().map(|folder| top.join(folder)).collect(),
    };
    for folder in &candidates {
        println!("cargo:rerun-if-changed={}", folder.join(ARCHIVE).display());
    }
    let Some(folder) = candidates
        .iter()
        .find(|folder| folder.join(ARCHIVE).is_file())
    else {
        let looked: Vec<_> = candidates
            .iter()
            .map(|it| it.display().to_string())
            .collect();
        eprintln!(
            "there is no {ARCHIVE} in {}: `./voumlis build --proved` at the top of the repository proves and builds it, \
             or VOUMLIS_ARCHIVE names the folder of one",
            looked.join(" or ")
        );
        process::exit(1);
    };
    println!("cargo:rustc-link-search=native={}", folder.display());
    println!("cargo:rustc-link-lib=static=simplex_c");
}
