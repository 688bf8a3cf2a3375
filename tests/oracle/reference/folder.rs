//! Where the unchanged source lies; for build scripts.

use std::env;
use std::path::{Path, PathBuf};

/// Where the source lies, below a folder `shared`.
const BELOW_SHARED: &str = "docs/src/del-fem-cpu/src";

pub fn workspace() -> PathBuf {
    let package = PathBuf::from(env::var_os("CARGO_MANIFEST_DIR").unwrap());
    let workspace = package.parent().expect("the package lies in the workspace");
    workspace.to_path_buf()
}

/// `DEL_FEM_SRC`, which if relative counts from the workspace; else the first folder `shared` with
/// the source beside the workspace or beside a folder that contains it; else the one in /work.
pub fn source_folder() -> PathBuf {
    println!("cargo:rerun-if-env-changed=DEL_FEM_SRC");
    let workspace = workspace();
    if let Some(given) = env::var_os("DEL_FEM_SRC") {
        return workspace.join(given);
    }
    let in_shared = |folder: &Path| folder.join("shared").join(BELOW_SHARED);
    (workspace.ancestors().skip(1).map(in_shared))
        .find(|folder| folder.is_dir())
        .unwrap_or_else(|| in_shared(Path::new("/work")))
}
