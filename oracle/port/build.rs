//! Links the static library that `bin/build mqtt_acl` writes, or the libmqtt_acl.a of
//! the folder MQTT_ACL_LIB.

use std::path::PathBuf;

fn main() {
    println!("cargo:rerun-if-env-changed=MQTT_ACL_LIB");
    let folder = match std::env::var_os("MQTT_ACL_LIB") {
        Some(folder) => PathBuf::from(folder),
        None => PathBuf::from(env!("CARGO_MANIFEST_DIR")).join("../../target/staticlib"),
    };
    println!("cargo:rerun-if-changed={}", folder.join("libmqtt_acl.a").display());
    println!("cargo:rustc-link-search=native={}", folder.display());
    println!("cargo:rustc-link-lib=static=mqtt_acl");
}
