//! What the tests share: running the program, and folders of their own.
#![allow(dead_code)]
pub mod damage;
pub mod kinds;
pub mod made;
pub mod svg;
use std::fs;
use std::path::{Path, PathBuf};
use std::process::{Command, Output};
use std::sync::atomic::{AtomicUsize, Ordering};

pub const HERE: &str = env!("CARGO_MANIFEST_DIR");

/// How many folders were made: tests run side by side.
static COUNT: AtomicUsize = AtomicUsize::new(0);

/// A folder that is removed at the end.
pub struct Folder(pub PathBuf);

impl Folder {
    pub fn new(name: &str) -> Self {
        let count = COUNT.fetch_add(1, Ordering::Relaxed);
        let path = std::env::temp_dir().join(format!("wall-{}-{count}-{name}", std::process::id()));
        let _ = fs::remove_dir_all(&path);
        fs::create_dir_all(&path).unwrap();
        Folder(path)
    }

    pub fn write(&self, name: &str, content: &[u8]) -> PathBuf {
        let path = self.0.join(name);
        fs::write(&path, content).unwrap();
        path
    }

    /// The names of its files, in order.
    pub fn files(&self) -> Vec<String> {
        let mut names: Vec<String> =
            fs::read_dir(&self.0).unwrap().map(|entry| entry.unwrap().file_name().into_string().unwrap()).collect();
        names.sort();
        names
    }
}

impl Drop for Folder {
    fn drop(&mut self) {
        let _ = fs::remove_dir_all(&self.0);
    }
}

pub fn root() -> PathBuf {
    Path::new(HERE).join("../..")
}

/// Runs the program in a folder.
pub fn wall_in(folder: &Path, words: &[&str]) -> Output {
    Command::new(env!("CARGO_BIN_EXE_wall")).args(words).current_dir(folder).output().unwrap()
}

/// Runs the program in the repository's root.
pub fn wall(words: &[&str]) -> Output {
    wall_in(&root(), words)
}

pub fn status(output: &Output) -> i32 {
    output.status.code().unwrap()
}

pub fn text(bytes: &[u8]) -> String {
    String::from_utf8(bytes.to_vec()).unwrap()
}

/// A folder with a made-up network of so many stations in it.
pub fn made(stations: usize) -> Folder {
    let folder = Folder::new(&format!("made{stations}"));
    let (buses, branches) = made::network(stations);
    folder.write("buses.csv", buses.as_bytes());
    folder.write("branches.csv", branches.as_bytes());
    folder
}

/// A folder with a network of a kind in it.
pub fn kind(kind: &str) -> Folder {
    let folder = Folder::new(kind);
    let (buses, branches) = kinds::network(kind).unwrap();
    folder.write("buses.csv", buses.as_bytes());
    folder.write("branches.csv", branches.as_bytes());
    folder
}

/// The sheet of a network and the pages of its index, drawn with these options.
pub fn sheet(network: &Path, options: &[&str]) -> (String, Vec<String>) {
    let folder = Folder::new("sheet");
    let full = network.canonicalize().unwrap();
    let words = [&["draw", full.to_str().unwrap(), "-o", "sheet.svg"], options].concat();
    let output = wall_in(&folder.0, &words);
    assert_eq!(status(&output), 0, "{}", text(&output.stderr));
    let read = |name: String| fs::read_to_string(folder.0.join(name)).ok();
    let page = |i: usize| read(if i == 1 { "sheet-index.svg".to_string() } else { format!("sheet-index-{i}.svg") });
    (read("sheet.svg".to_string()).unwrap(), (1..).map_while(page).collect())
}
