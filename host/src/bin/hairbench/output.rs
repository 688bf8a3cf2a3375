//! Writes files: all to temporary names first, then each is renamed, so that a file is there whole or not at all.

use std::fs;
use std::path::{Path, PathBuf};

/// A file to be written into the output folder.
#[derive(Clone, Debug)]
pub struct Output {
    pub name: String,
    pub text: String,
}

/// The paths written, or what went wrong, in which case no temporary file is left.
pub fn write(folder: &Path, outputs: &[Output]) -> Result<Vec<PathBuf>, String> {
    if outputs.is_empty() {
        return Ok(vec![]);
    }
    fs::create_dir_all(folder).map_err(|e| format!("{}: {e}", folder.display()))?;
    let temporary = |output: &Output| folder.join(format!(".{}.{}.part", output.name, std::process::id()));
    let written = written(folder, outputs, temporary);
    if written.is_err() {
        for output in outputs {
            let _ = fs::remove_file(temporary(output));
        }
    }
    written
}

fn written(folder: &Path, outputs: &[Output], temporary: impl Fn(&Output) -> PathBuf) -> Result<Vec<PathBuf>, String> {
    for output in outputs {
        let path = temporary(output);
        fs::write(&path, &output.text).map_err(|e| format!("{}: {e}", path.display()))?;
    }
    let mut paths = vec![];
    for output in outputs {
        let path = folder.join(&output.name);
        fs::rename(temporary(output), &path).map_err(|e| format!("{}: {e}", path.display()))?;
        paths.push(path);
    }
    Ok(paths)
}

#[cfg(test)]
mod tests {
    use super::*;

    fn folder(name: &str) -> PathBuf {
        let folder = std::env::temp_dir().join(format!("hairbench-output-{}-{name}", std::process::id()));
        let _ = fs::remove_dir_all(&folder);
        folder
    }

    fn output(name: &str) -> Output {
        Output { name: name.to_string(), text: format!("text of {name}") }
    }

    #[test]
    fn files_are_written_and_no_other_is_left() {
        let folder = folder("good");
        let paths = write(&folder, &[output("a.svg"), output("b.html")]).expect("a writable folder");
        assert_eq!(paths.len(), 2);
        assert_eq!(fs::read_to_string(&paths[1]).expect("written"), "text of b.html");
        assert_eq!(fs::read_dir(&folder).expect("a folder").count(), 2);
        fs::remove_dir_all(&folder).expect("a folder");
    }

    #[test]
    fn a_failure_leaves_no_temporary_file() {
        let folder = folder("bad");
        fs::create_dir_all(folder.join("a.svg/inside")).expect("a folder in the way");
        assert!(write(&folder, &[output("a.svg"), output("b.html")]).is_err());
        assert_eq!(fs::read_dir(&folder).expect("a folder").count(), 1);
        fs::remove_dir_all(&folder).expect("a folder");
    }
}
