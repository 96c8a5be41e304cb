//! Links the library that NSF_LIBRARY names, a libnsf.a of scripts/library, or those that NSF_LIBRARIES names, a line
//! each, as run.sh does. A package that depends on this one links them too.
use std::path::Path;

fn main() {
    println!("cargo:rerun-if-env-changed=NSF_LIBRARIES");
    println!("cargo:rerun-if-env-changed=NSF_LIBRARY");
    let libraries = std::env::var("NSF_LIBRARIES")
        .or_else(|_| std::env::var("NSF_LIBRARY"))
        .expect("NSF_LIBRARY names a libnsf.a: see scripts/library");
    for library in libraries.lines() {
        let path = Path::new(library);
        let name = path
            .file_stem()
            .and_then(|stem| stem.to_str())
            .and_then(|stem| stem.strip_prefix("lib"));
        let (Some(folder), Some(name)) = (path.parent(), name) else {
            panic!("{library} is no path of a lib..a");
        };
        println!("cargo:rustc-link-search=native={}", folder.display());
        println!("cargo:rustc-link-lib=static={name}");
        println!("cargo:rerun-if-changed={library}");
    }
}
