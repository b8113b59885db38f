//! Finds the archive of the proved library: the file that SCENE_LOG_ARCHIVE names, or the one in `crates/scene_log/out`
//! beside `rust/`, which `rt` makes where it is missing. Where there is none, and on a wrong system, it says what to do.

use std::env;
use std::path::{Path, PathBuf};
use std::process::Command;

const NAME: &str = "libscene_log.a";

fn main() {
    println!("cargo::rerun-if-env-changed=SCENE_LOG_ARCHIVE");
    match supported_system().and_then(|()| archive()) {
        Ok(archive) => {
            println!("cargo::rerun-if-changed={}", archive.display());
            let folder = archive.parent().expect("a file stands in a folder");
            println!("cargo::rustc-link-search=native={}", folder.display());
            println!("cargo::rustc-link-lib=static=scene_log");
        }
        Err(message) => println!("cargo::error={message}"),
    }
}

/// The proved library is compiled for x86-64 Linux.
fn supported_system() -> Result<(), String> {
    let of_target = |name: &str| env::var(name).unwrap_or_default();
    let (arch, os) = (of_target("CARGO_CFG_TARGET_ARCH"), of_target("CARGO_CFG_TARGET_OS"));
    if (arch.as_str(), os.as_str()) == ("x86_64", "linux") {
        return Ok(());
    }
    Err(format!("the proved library is compiled for x86-64 Linux, and this build is for {arch} {os}"))
}

fn archive() -> Result<PathBuf, String> {
    if let Some(path) = env::var_os("SCENE_LOG_ARCHIVE") {
        let path = PathBuf::from(path);
        let is_named_so = path.file_name().is_some_and(|name| name == NAME);
        return if is_named_so && path.is_file() {
            Ok(path)
        } else {
            Err(format!("SCENE_LOG_ARCHIVE is {}, and that is no file {NAME}", path.display()))
        };
    }
    let its_crate = Path::new(env!("CARGO_MANIFEST_DIR")).join("../../crates/scene_log");
    let path = its_crate.join("out").join(NAME);
    if !path.is_file() {
        make(&its_crate)?;
    }
    Ok(path)
}

/// Has `rt` prove and build the archive.
fn make(its_crate: &Path) -> Result<(), String> {
    println!("cargo::warning=crates/scene_log/out/{NAME} is missing: `rt lib` makes it, which takes minutes");
    match Command::new("rt").arg("lib").current_dir(its_crate).output() {
        Ok(output) if output.status.success() => Ok(()),
        Ok(_) => Err("`rt lib` fails: run it in crates/scene_log to see why".into()),
        Err(_) => Err(format!(
            "there is no crates/scene_log/out/{NAME}, and the Rattle toolchain that makes it is not installed: 'rt' is \
             not on the PATH. Install it, or let SCENE_LOG_ARCHIVE name the archive"
        )),
    }
}
