//! Finds `libnitpicker.a`: in the folder of `NITPICKER_LIB_DIR`, or else by `pkg-config`.

use std::env;
use std::process::Command;

/// The folder of the library by `pkg-config`.
fn installed() -> Option<String> {
    let said = Command::new("pkg-config")
        .args(["--variable=libdir", "nitpicker"])
        .output()
        .ok()?;
    let folder = String::from_utf8(said.stdout).ok()?.trim().to_owned();
    (said.status.success() && !folder.is_empty()).then_some(folder)
}

fn main() {
    println!("cargo:rerun-if-env-changed=NITPICKER_LIB_DIR");
    println!("cargo:rerun-if-env-changed=PKG_CONFIG_PATH");
    let folder = env::var("NITPICKER_LIB_DIR")
        .ok()
        .or_else(installed)
        .expect(
            "no libnitpicker.a: set NITPICKER_LIB_DIR to its folder, or install it for pkg-config",
        );
    println!("cargo:rerun-if-changed={folder}/libnitpicker.a");
    println!("cargo:rustc-link-search=native={folder}");
    println!("cargo:rustc-link-lib=static=nitpicker");
}
