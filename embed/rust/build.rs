//! Finds `libhostc.a`: in the folder that the variable `HOSTC_LIBRARY_FOLDER` names, in `embed/out`, or in `embed/lib`, for the processor that is built for.

use std::env;
use std::path::PathBuf;

fn main() {
    println!("cargo:rerun-if-env-changed=HOSTC_LIBRARY_FOLDER");
    let embed = PathBuf::from(env::var_os("CARGO_MANIFEST_DIR").expect("cargo names the folder")).join("..");
    let processor = env::var("CARGO_CFG_TARGET_ARCH").expect("cargo names the processor");
    let mut folders: Vec<PathBuf> = env::var_os("HOSTC_LIBRARY_FOLDER").map(PathBuf::from).into_iter().collect();
    if env::var("HOST").ok() == env::var("TARGET").ok() {
        folders.push(embed.join("out"));
    }
    folders.push(embed.join("lib").join(&processor));
    match folders.iter().find(|folder| folder.join("libhostc.a").exists()) {
        Some(folder) => {
            println!("cargo:rerun-if-changed={}", folder.join("libhostc.a").display());
            println!("cargo:rustc-link-search=native={}", folder.display());
            println!("cargo:rustc-link-lib=static=hostc");
        }
        None => panic!("there is no libhostc.a for {processor}: embed/build makes it, or HOSTC_LIBRARY_FOLDER names its folder"),
    }
}
