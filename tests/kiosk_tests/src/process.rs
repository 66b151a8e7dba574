//! A program that is started, fed and waited for.

use std::io::Write;
use std::path::{Path, PathBuf};
use std::process::{Command, Output, Stdio};

/// Where the programs stand as this machine runs them: `tests/library` puts them there.
pub fn bin() -> PathBuf {
    Path::new(env!("CARGO_MANIFEST_DIR"))
        .join("../../target/run")
        .canonicalize()
        .expect("the programs stand in target/run: tests/library puts them there")
}

/// What comes of the command with this input.
pub fn output(command: &mut Command, input: &[u8]) -> Output {
    let mut child = command
        .stdin(Stdio::piped())
        .stdout(Stdio::piped())
        .stderr(Stdio::piped())
        .spawn()
        .expect("the program can be started");
    let mut stdin = child.stdin.take().unwrap();
    let bytes = input.to_vec();
    // Written beside the reading: neither side may wait for the other. A
    // program may stop reading, so a broken pipe is fine.
    let writer = std::thread::spawn(move || {
        let _ = stdin.write_all(&bytes);
    });
    let output = child.wait_with_output().expect("the program ends");
    writer.join().unwrap();
    output
}
