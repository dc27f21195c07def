//! Links the static library that the repository proves and builds (`bin/build mqtt_acl`, asked here each time), or the
//! libmqtt_acl.a of the folder MQTT_ACL_LIB.

use std::env::{var, var_os};
use std::fmt::Arguments;
use std::fs::OpenOptions;
use std::path::{Path, PathBuf};
use std::process::{exit, Command, Stdio};

fn main() {
    // A path that never exists: cargo runs this each time, whatever the times of files are.
    println!("cargo:rerun-if-changed=never-there");
    println!("cargo:rerun-if-env-changed=MQTT_ACL_LIB");
    let target = |part: &str| var(format!("CARGO_CFG_TARGET_{part}")).unwrap_or_default();
    let parts = [target("ARCH"), target("OS"), target("POINTER_WIDTH")];
    if parts != ["x86_64", "linux", "64"] {
        stop(format_args!("libmqtt_acl.a is for 64-bit x86-64 Linux; this target is {}", parts.join(" ")));
    }
    let folder = match var_os("MQTT_ACL_LIB") {
        Some(folder) => PathBuf::from(folder),
        None => built(&Path::new(env!("CARGO_MANIFEST_DIR")).join("..")),
    };
    let library = folder.join("libmqtt_acl.a");
    if !library.exists() {
        stop(format_args!("{} is missing", library.display()));
    }
    println!("cargo:rustc-link-search=native={}", folder.display());
    println!("cargo:rustc-link-lib=static=mqtt_acl");
}

/// The folder of the library, once it is what the sources say. Cargo hides what a build script says, and the first
/// time takes some minutes, so it goes to the terminal where there is one.
fn built(root: &Path) -> PathBuf {
    let says = match OpenOptions::new().write(true).open("/dev/tty") {
        Ok(terminal) => Stdio::from(terminal),
        Err(_) => Stdio::inherit(),
    };
    let build = root.join("bin/build");
    match Command::new(&build).arg("mqtt_acl").stdout(Stdio::null()).stderr(says).status() {
        Ok(status) if status.success() => root.join("target/staticlib"),
        Ok(status) => stop(format_args!(
            "bin/build mqtt_acl: {status}; or set MQTT_ACL_LIB to the folder of a libmqtt_acl.a"
        )),
        Err(error) => stop(format_args!("{}: {error}", build.display())),
    }
}

fn stop(why: Arguments) -> ! {
    eprintln!("mqtt-acl: {why}");
    exit(1)
}
