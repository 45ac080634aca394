//! Finds liblaxonje: in the folder `LAXONJE_DIR`, else by pkg-config. An archive is linked statically, unless `LAXONJE_DYNAMIC` is set. Compares
//! the declarations with the library's header, if that is there and a C compiler is (`CC`).
use std::env;
use std::fs;
use std::path::{Path, PathBuf};
use std::process::{exit, Command};

#[allow(dead_code)]
mod header;

const DECLARATIONS: &str = "src/lib.rs";

fn main() {
    for name in ["LAXONJE_DIR", "LAXONJE_DYNAMIC", "PKG_CONFIG_PATH", "CC"] {
        println!("cargo:rerun-if-env-changed={name}");
    }
    for name in [DECLARATIONS, "header.rs", "build.rs"] {
        println!("cargo:rerun-if-changed={name}");
    }
    let folders = env::var("LAXONJE_DIR").map(|folder| (folder.clone(), Some(folder))).or_else(|_| installed());
    let (libraries, headers) = folders.unwrap_or_else(|why| {
        stop(&format!(
            "liblaxonje isn't found ({why}): set LAXONJE_DIR to the folder of liblaxonje.a, or PKG_CONFIG_PATH to that of laxonje.pc"
        ))
    });
    link(&libraries);
    if let Some(folder) = headers.filter(|folder| Path::new(folder).join("laxonje.h").exists()) {
        println!("cargo:rerun-if-changed={folder}/laxonje.h");
        println!("cargo:rustc-env=LAXONJE_INCLUDE={folder}");
        compare(&folder);
    }
}

fn stop(why: &str) -> ! {
    eprintln!("{why}");
    exit(1)
}

fn link(folder: &str) {
    let (archive, shared) = (Path::new(folder).join("liblaxonje.a"), Path::new(folder).join("liblaxonje.so"));
    let fixed = archive.exists() && env::var_os("LAXONJE_DYNAMIC").is_none();
    if !fixed && !shared.exists() {
        stop(&format!("{folder} has no liblaxonje.so{}", if archive.exists() { "" } else { " and no liblaxonje.a" }));
    }
    println!("cargo:rerun-if-changed={}", archive.display());
    println!("cargo:rustc-link-search=native={folder}");
    println!("cargo:rustc-link-lib={}laxonje", if fixed { "static=" } else { "" });
}

/// The folders of the library and of its header, as pkg-config says them.
fn installed() -> Result<(String, Option<String>), String> {
    Ok((variable("libdir")?, Some(variable("includedir")?)))
}

/// A folder that pkg-config knows. It says its own with a backslash before each blank.
fn variable(name: &str) -> Result<String, String> {
    let folder = pkg_config(&format!("--variable={name}"))?;
    match Path::new(&folder).exists() {
        true => Ok(folder),
        false => Ok(folder.replace("\\ ", " ")),
    }
}

fn pkg_config(word: &str) -> Result<String, String> {
    let said = Command::new("pkg-config").args([word, "laxonje"]).output().map_err(|error| format!("pkg-config: {error}"))?;
    match said.status.success() {
        true => Ok(String::from_utf8_lossy(&said.stdout).trim().to_owned()),
        false => Err(String::from_utf8_lossy(&said.stderr).trim().replace('\n', "; ")),
    }
}

/// Stops if the declarations aren't those of the header. Without a C compiler nothing is compared.
fn compare(headers: &str) {
    let declared = fs::read_to_string(DECLARATIONS).unwrap_or_else(|error| stop(&format!("{DECLARATIONS}: {error}")));
    let source = PathBuf::from(env::var_os("OUT_DIR").unwrap_or_default()).join("header.c");
    fs::write(&source, header::checks(&declared)).unwrap_or_else(|error| stop(&format!("{}: {error}", source.display())));
    if let Some(said) = compiler(headers, &source).filter(|said| !said.is_empty()) {
        stop(&format!("the declarations aren't those of {headers}/laxonje.h:\n{said}"));
    }
}

/// What the compiler says is wrong. `None`: there is no compiler.
fn compiler(headers: &str, source: &Path) -> Option<String> {
    let name = env::var("CC").unwrap_or_else(|_| "cc".to_owned());
    let mut own = name.split_whitespace();
    let mut command = Command::new(own.next()?);
    let said = command.args(own).args(["-std=gnu11", "-fsyntax-only", "-I", headers]).arg(source).output().ok()?;
    Some(if said.status.success() { String::new() } else { format!("{} ", String::from_utf8_lossy(&said.stderr)) })
}
