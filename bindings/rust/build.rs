//! Says where the library lies: in the folder SYSLOG_LOOSE_LIB, or where pkg-config says, or where the linker looks.
use std::env;
use std::path::Path;
use std::process::Command;

fn main() {
    for name in ["SYSLOG_LOOSE_LIB", "SYSLOG_LOOSE_STATIC", "PKG_CONFIG_PATH", "PKG_CONFIG_SYSROOT_DIR"] {
        println!("cargo:rerun-if-env-changed={name}");
    }
    for folder in env::var("SYSLOG_LOOSE_LIB").map_or_else(|_| told_folders(), |folder| vec![folder]) {
        println!("cargo:rustc-link-search=native={folder}");
        let library = format!("{folder}/libsyslog_loose.a");
        // (the crate has a copy of the static library, and has to be made anew where that was)
        if Path::new(&library).exists() {
            println!("cargo:rerun-if-changed={library}");
        }
    }
    let kind = if env::var_os("SYSLOG_LOOSE_STATIC").is_some() { "static" } else { "dylib" };
    println!("cargo:rustc-link-lib={kind}=syslog_loose");
}

fn told_folders() -> Vec<String> {
    let told = Command::new("pkg-config").args(["--libs-only-L", "syslog_loose"]).output();
    let words = told.map(|it| String::from_utf8_lossy(&it.stdout).into_owned()).unwrap_or_default();
    words.split_whitespace().map(|it| it.trim_start_matches("-L").to_string()).collect()
}
