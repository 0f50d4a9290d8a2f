//! Finds libtcap: in the folder that `TCAP_LIB_DIR` names, else by pkg-config, which is asked for this version or a newer
//! one of the same MAJOR. `Handle::open` asks the library itself, however it was found.
//!
//! In a folder, libtcap.a is taken where it is there, so that a program needs no library when it runs. `TCAP_LINK` is
//! `static` or `dylib` and says which one is taken, in either case.

use std::env;
use std::path::Path;
use std::process::{exit, Command};

fn fail(why: &str) -> ! {
    eprintln!("tcap-sys: {}", why);
    eprintln!("tcap-sys: install libtcap, and name its folder in TCAP_LIB_DIR or its tcap.pc in PKG_CONFIG_PATH");
    exit(1)
}

/// Links the library of a folder.
fn link_in(folder: &str, link: Option<&str>) {
    let folder = Path::new(folder);
    let has_static = folder.join("libtcap.a").exists();
    if !has_static && !folder.join("libtcap.so").exists() {
        fail(&format!("TCAP_LIB_DIR: {} has neither libtcap.a nor libtcap.so", folder.display()));
    }
    let kind = link.unwrap_or(if has_static { "static" } else { "dylib" });
    println!("cargo:rustc-link-search=native={}", folder.display());
    println!("cargo:rustc-link-lib={}=tcap", kind);
}

/// Links what pkg-config says.
fn link_by_pkg_config(link: Option<&str>) {
    let tool = env::var("PKG_CONFIG").unwrap_or_else(|_| "pkg-config".into());
    let ran = Command::new(&tool).args(["--libs", "tcap >= 0.1.0", "tcap < 1"]).output();
    let words = match ran {
        Ok(ran) if ran.status.success() => String::from_utf8_lossy(&ran.stdout).into_owned(),
        Ok(ran) => fail(&format!("{}: {}", tool, String::from_utf8_lossy(&ran.stderr).trim())),
        Err(error) => fail(&format!("{}: {}", tool, error)),
    };
    let folders: Vec<&str> = words.split_whitespace().filter_map(|word| word.strip_prefix("-L")).collect();
    for folder in &folders {
        println!("cargo:rustc-link-search=native={}", folder);
    }
    let has_static = folders.iter().any(|folder| Path::new(folder).join("libtcap.a").exists());
    match link {
        Some("static") if !has_static && !folders.is_empty() => fail("pkg-config's folder has no libtcap.a"),
        Some(kind) => println!("cargo:rustc-link-lib={}=tcap", kind),
        None => println!("cargo:rustc-link-lib=dylib=tcap"),
    }
}

fn main() {
    for name in ["TCAP_LIB_DIR", "TCAP_LINK", "PKG_CONFIG", "PKG_CONFIG_PATH", "PKG_CONFIG_LIBDIR"] {
        println!("cargo:rerun-if-env-changed={}", name);
    }
    let link = env::var("TCAP_LINK").ok();
    match link.as_deref() {
        None | Some("static") | Some("dylib") => {}
        Some(word) => fail(&format!("TCAP_LINK is static or dylib, not {}", word)),
    }
    match env::var("TCAP_LIB_DIR") {
        Ok(folder) => {
            println!("cargo:rerun-if-changed={}", folder);
            link_in(&folder, link.as_deref())
        }
        Err(_) => link_by_pkg_config(link.as_deref()),
    }
}
