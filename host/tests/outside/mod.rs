//! A test's folder outside the repository, which goes when the test ends. `rt ci` refuses a .rt file, a crates.txt or a link
//! wherever one stands in the repository that is none of a crate's own, also below target/.
use std::fs;
use std::path::{Path, PathBuf};

pub struct Outside {
    root: PathBuf,
}

impl Outside {
    /// An empty folder. Its name is of this process alone.
    pub fn new(name: &str) -> Self {
        let root = std::env::temp_dir().join(format!("pitchsleet-{}-{name}", std::process::id()));
        let _ = fs::remove_dir_all(&root);
        fs::create_dir_all(&root).expect("a folder");
        Self { root }
    }

    pub fn path(&self) -> &Path {
        &self.root
    }
}

impl Drop for Outside {
    fn drop(&mut self) {
        let _ = fs::remove_dir_all(&self.root);
    }
}
