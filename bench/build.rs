//! Says where the archives are that the features ask for: `make` puts them there, as
//! target/staticlib/libNAME.a.

use std::env;
use std::path::Path;

fn main() {
    println!("cargo:rerun-if-changed=build.rs");
    let folder = env::var("CARGO_MANIFEST_DIR").expect("cargo names the folder");
    let archives = Path::new(&folder).join("../target/staticlib");
    for (feature, archive) in [
        ("CARGO_FEATURE_MEASURED", "libmeasured.a"),
        ("CARGO_FEATURE_OPENLR", "libopenlr.a"),
    ] {
        if env::var_os(feature).is_some() {
            println!("cargo:rustc-link-search=native={}", archives.display());
            println!(
                "cargo:rerun-if-changed={}",
                archives.join(archive).display()
            );
        }
    }
}
