//! A folder of its own for each test, in memory where the system has such.
use recfile::File;
use std::path::{Path, PathBuf};
use std::{env, fs, process};

pub struct Room(PathBuf);

impl Room {
    pub fn new(name: &str) -> Room {
        let memory = Path::new("/dev/shm");
        let top = if memory.is_dir() { memory.to_path_buf() } else { env::temp_dir() };
        let room = top.join(format!("recfile-{}-{name}", process::id()));
        fs::create_dir_all(&room).unwrap();
        Room(room)
    }

    pub fn path(&self, name: &str) -> PathBuf {
        self.0.join(name)
    }
}

impl Drop for Room {
    fn drop(&mut self) {
        let _ = fs::remove_dir_all(&self.0);
    }
}

/// The records of a file on the disk.
#[allow(dead_code)]
pub fn dump(path: &Path) -> Vec<(Vec<u8>, Vec<u8>)> {
    let file = File::open(path).unwrap();
    let entries = file.entries().map(|entry| entry.unwrap());
    entries.map(|entry| (entry.key.to_vec(), entry.record.to_vec())).collect()
}

/// Commits one record.
#[allow(dead_code)]
pub fn put(file: &File, key: &str, record: &str) {
    let order = file.begin().unwrap();
    order.put(key.as_bytes(), record.as_bytes()).unwrap();
    order.commit().unwrap();
}
