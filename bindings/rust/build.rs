//! Finds the library of `include/bracha.h`: in the folder BRACHA_LIBRARY_DIR, else where pkg-config
//! says, else where the linker looks. It is linked statically if the folder has `libbracha.a`,
//! unless BRACHA_LINK is `dynamic`.

use std::path::Path;
use std::process::Command;

/// Returns the folder that pkg-config names, if there is a pkg-config and it knows the library.
fn folder_of_pkg_config() -> Option<String> {
    let said = Command::new("pkg-config").args(["--variable=libdir", "bracha"]).output().ok()?;
    let folder = String::from_utf8(said.stdout).ok()?.trim().to_owned();
    (said.status.success() && !folder.is_empty()).then_some(folder)
}

fn main() {
    println!("cargo:rerun-if-env-changed=BRACHA_LIBRARY_DIR");
    println!("cargo:rerun-if-env-changed=BRACHA_LINK");
    let folder = std::env::var("BRACHA_LIBRARY_DIR").ok().or_else(folder_of_pkg_config);
    let dynamic = std::env::var("BRACHA_LINK").is_ok_and(|kind| kind == "dynamic");
    let mut kind = "dylib";
    if let Some(folder) = folder {
        println!("cargo:rustc-link-search=native={folder}");
        println!("cargo:rerun-if-changed={folder}/libbracha.a");
        if !dynamic && Path::new(&folder).join("libbracha.a").is_file() {
            kind = "static";
        }
    }
    println!("cargo:rustc-link-lib={kind}=bracha");
}
