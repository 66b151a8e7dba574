//! The programs for people, `target/run/tables_build`, `tables_check` and
//! `tables_ask`, each run in a folder of its own.

use crate::process;
use std::fs;
use std::path::PathBuf;
use std::process::{Command, Output};
use std::sync::atomic::{AtomicUsize, Ordering};

/// A folder that is removed in the end.
pub struct Folder(PathBuf);

impl Folder {
    pub fn new() -> Folder {
        static COUNT: AtomicUsize = AtomicUsize::new(0);
        let name =
            format!("people-{}-{}", std::process::id(), COUNT.fetch_add(1, Ordering::Relaxed));
        let path = std::env::temp_dir().join(name);
        fs::create_dir(&path).expect("a folder can be made");
        Folder(path)
    }

    pub fn path(&self, name: &str) -> PathBuf {
        self.0.join(name)
    }

    pub fn put(&self, name: &str, bytes: &[u8]) {
        fs::write(self.path(name), bytes).expect("a file can be written");
    }

    pub fn get(&self, name: &str) -> Option<Vec<u8>> {
        fs::read(self.path(name)).ok()
    }

    /// The names of its files, in order.
    pub fn names(&self) -> Vec<String> {
        let mut names: Vec<String> = fs::read_dir(&self.0)
            .expect("the folder can be read")
            .map(|entry| entry.unwrap().file_name().into_string().unwrap())
            .collect();
        names.sort();
        names
    }

    /// What a program prints here, with these words and this input.
    pub fn run(&self, program: &str, words: &[&str], input: &[u8]) -> Vec<u8> {
        let mut command = Command::new(process::bin().join(program));
        let output = process::output(command.args(words).current_dir(&self.0), input);
        assert!(output.status.success(), "{program} ended with {}", output.status);
        output.stdout
    }

    /// What comes of these commands of the shell, with the programs' folder in
    /// `$bin`.
    pub fn shell(&self, commands: &str) -> Output {
        let mut command = Command::new("bash");
        command.arg("-c").arg(commands).env("bin", process::bin()).current_dir(&self.0);
        process::output(&mut command, b"")
    }
}

impl Default for Folder {
    fn default() -> Folder {
        Folder::new()
    }
}

impl Drop for Folder {
    fn drop(&mut self) {
        let _ = fs::remove_dir_all(&self.0);
    }
}
