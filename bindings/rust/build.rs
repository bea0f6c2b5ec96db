//! Says where the archive is: under ZIBSNARDA_PREFIX, else where pkg-config has it, else under /usr/local.
use std::process::Command;

fn main() {
    println!("cargo:rerun-if-env-changed=ZIBSNARDA_PREFIX");
    println!("cargo:rerun-if-env-changed=PKG_CONFIG_PATH");
    let told = Command::new("pkg-config").args(["--variable=libdir", "zibsnarda"]).output();
    let found = told.ok().filter(|out| out.status.success()).map(|out| String::from_utf8_lossy(&out.stdout).trim().replace("\\ ", " "));
    let folder = match std::env::var("ZIBSNARDA_PREFIX") {
        Ok(prefix) => format!("{prefix}/lib"),
        Err(_) => found.unwrap_or_else(|| "/usr/local/lib".to_string()),
    };
    let archive = format!("{folder}/libzibsnarda.a");
    assert!(std::path::Path::new(&archive).is_file(), "no {archive}: run ./install.sh PREFIX and set ZIBSNARDA_PREFIX to that prefix, as an absolute path");
    println!("cargo:rerun-if-changed={archive}");
    println!("cargo:rustc-link-search=native={folder}");
    println!("cargo:rustc-link-lib=static=zibsnarda");
}
