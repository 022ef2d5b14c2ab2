//! Finds the crate's files and writes what `lib.rs` includes of them. Nothing of them is copied into the
//! repository.

use std::path::{Path, PathBuf};
use std::{env, fs};

/// The files, below the folder's `src`, that are compiled or included.
const FILES: [&str; 9] = [
    "errors.rs",
    "log_unstable.rs",
    "quorum.rs",
    "quorum/joint.rs",
    "quorum/majority.rs",
    "raft_log.rs",
    "storage.rs",
    "tracker/inflights.rs",
    "util.rs",
];

fn main() {
    let source = folder();
    for file in FILES {
        println!("cargo:rerun-if-changed={}", source.join(file).display());
    }
    let out = PathBuf::from(env::var_os("OUT_DIR").expect("cargo names OUT_DIR"));
    write_errors(&source, &out);
    write_modules(&source, &out);
}

/// The folder `src` of the crate: below DECKPLOVER_RAFT_SRC, else beside the repository.
fn folder() -> PathBuf {
    println!("cargo:rerun-if-env-changed=DECKPLOVER_RAFT_SRC");
    let here = PathBuf::from(env::var_os("CARGO_MANIFEST_DIR").expect("cargo names the package's folder"));
    let crate_folder = env::var_os("DECKPLOVER_RAFT_SRC")
        .map(PathBuf::from)
        .unwrap_or_else(|| here.join("../../../shared/docs/src"));
    crate_folder.join("src").canonicalize().unwrap_or_else(|e| {
        panic!(
            "no folder {}/src ({}): DECKPLOVER_RAFT_SRC names the one with raft 0.7.0",
            crate_folder.display(),
            e
        )
    })
}

/// errors.rs ends in an attribute with no item behind it (its tests stood there): a copy in the build folder
/// gets one.
fn write_errors(source: &Path, out: &Path) {
    let text = fs::read_to_string(source.join("errors.rs")).expect("errors.rs");
    fs::write(out.join("errors.rs"), text + "\nmod nothing {}\n").expect("write errors.rs");
}

/// The modules by path. quorum.rs has modules of its own in quorum/: it finds them only from inside an inline
/// module whose path is the folder. inflights.rs goes in as text, so that `lib.rs` can read its private
/// fields.
fn write_modules(source: &Path, out: &Path) {
    let text = format!(
        "#[path = {source:?}]\n\
         mod files {{\n\
             pub mod log_unstable;\n\
             pub mod quorum;\n\
             pub mod raft_log;\n\
             pub mod storage;\n\
             pub mod util;\n\
         }}\n\
         #[path = {errors:?}]\n\
         pub mod errors;\n\
         pub mod inflights {{\n\
             include!({inflights:?});\n\
             include!({window:?});\n\
         }}\n",
        source = source,
        errors = out.join("errors.rs"),
        inflights = source.join("tracker/inflights.rs"),
        window = Path::new(&env::var("CARGO_MANIFEST_DIR").unwrap()).join("src/window.rs"),
    );
    fs::write(out.join("modules.rs"), text).expect("write modules.rs");
}
