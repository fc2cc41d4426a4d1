//! Copies the reference's text into OUT_DIR, where src/lib.rs includes it. The text is in the folder that
//! LEGEND_ORACLE_SRC names; by default in `shared/docs/src` beside the repository's folder, or beside the folder above
//! it. Where there is none the crate still compiles, without the cfg `text`. The build scripts of crates over this one
//! read DEP_LEGEND_ORACLE_PRESENT, which is 1 where the text is there.

use std::path::{Path, PathBuf};
use std::{env, fs};

const FILES: [&str; 10] = [
    "allocate.rs",
    "cast.rs",
    "color.rs",
    "colormap.rs",
    "colormapper.rs",
    "colormapper/banded.rs",
    "colormapper/catgegoric.rs",
    "colormapper/linear.rs",
    "interpolate.rs",
    "legend.rs",
];

fn main() {
    println!("cargo:rerun-if-env-changed=LEGEND_ORACLE_SRC");
    let crate_folder = PathBuf::from(env::var("CARGO_MANIFEST_DIR").expect("cargo names the crate's folder"));
    let Some(source) = source(&crate_folder) else {
        println!("cargo:warning=the reference's text is not here (LEGEND_ORACLE_SRC): nothing is compared with it");
        println!("cargo:present=0");
        return;
    };
    let text = PathBuf::from(env::var("OUT_DIR").expect("cargo names the output folder")).join("text");
    fs::create_dir_all(text.join("colormapper")).expect("the output folder is writable");
    for file in FILES {
        println!("cargo:rerun-if-changed={}", source.join(file).display());
        fs::copy(source.join(file), text.join(file)).expect("the file is readable");
    }
    // colormapper.rs declares these three, and rustc looks for them beside the included file.
    for mapper in ["banded", "catgegoric", "linear"] {
        let reach = crate_folder.join("src/colormapper").join(mapper).join("reach.rs");
        let module = format!("include!(\"colormapper/{mapper}.rs\");\n#[path = {reach:?}]\npub(crate) mod reach;\n");
        fs::write(text.join(format!("{mapper}.rs")), module).expect("the output folder is writable");
    }
    println!("cargo:rustc-cfg=text");
    println!("cargo:present=1");
}

/// The folder of the reference's files, if there is one.
fn source(crate_folder: &Path) -> Option<PathBuf> {
    let repository = crate_folder.ancestors().nth(2)?;
    let named = env::var_os("LEGEND_ORACLE_SRC").map(PathBuf::from);
    let beside = || repository.ancestors().skip(1).take(2).map(|folder| folder.join("shared/docs/src")).collect();
    named
        .map_or_else(beside, |folder| vec![folder])
        .into_iter()
        .map(|folder: PathBuf| folder.join("crates/inf/src"))
        .find(|folder| FILES.iter().all(|file| folder.join(file).is_file()))
}
