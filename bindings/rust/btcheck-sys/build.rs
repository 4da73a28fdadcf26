//! Says where libbtcheck is: in the folder that `BTCHECK_LIB_DIR` names, with `BTCHECK_STATIC=1` as libbtcheck.a; else where
//! `pkg-config` finds it.
use std::env;
use std::process::Command;

fn main() {
    println!("cargo:rerun-if-env-changed=BTCHECK_LIB_DIR");
    println!("cargo:rerun-if-env-changed=BTCHECK_STATIC");
    println!("cargo:rerun-if-env-changed=PKG_CONFIG_PATH");
    let kind = if env::var("BTCHECK_STATIC").map_or(false, |it| it == "1") {
        "static"
    } else {
        "dylib"
    };
    match env::var("BTCHECK_LIB_DIR") {
        Ok(folder) => {
            println!("cargo:rustc-link-search=native={folder}");
            // (a static library that was made anew is linked anew)
            println!("cargo:rerun-if-changed={folder}");
        }
        Err(_) => search(),
    }
    println!("cargo:rustc-link-lib={kind}=btcheck");
}

fn search() {
    let found = Command::new("pkg-config")
        .args(["--libs-only-L", "btcheck"])
        .output();
    let flags = match found {
        Ok(found) if found.status.success() => String::from_utf8_lossy(&found.stdout).into_owned(),
        _ => panic!(
            "pkg-config does not find btcheck: install it, or name its folder by BTCHECK_LIB_DIR"
        ),
    };
    for flag in flags.split_whitespace() {
        if let Some(folder) = flag.strip_prefix("-L") {
            println!("cargo:rustc-link-search=native={folder}");
        }
    }
}
