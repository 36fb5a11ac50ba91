//! A folder for a test, in memory where the machine has such a file system; removed in the end.

use std::path::{Path, PathBuf};
use std::{env, fs, process};

pub struct Place(PathBuf);

impl Place {
    pub fn new(name: &str) -> Place {
        let name = format!("paviluko-{name}-{}", process::id());
        let memory = Path::new("/dev/shm").join(&name);
        if fs::create_dir(&memory).is_ok() {
            return Place(memory);
        }
        let folder = env::temp_dir().join(&name);
        fs::create_dir(&folder).expect("a folder for the test");
        Place(folder)
    }

    pub fn join(&self, name: &str) -> PathBuf {
        self.0.join(name)
    }
}

impl Drop for Place {
    fn drop(&mut self) {
        let _ = fs::remove_dir_all(&self.0);
    }
}
