//! The program `target/run/journey`, or the one that `KIOSK_JOURNEY` names.

use crate::process;
use std::path::PathBuf;
use std::process::Command;

pub struct Program;

fn path() -> PathBuf {
    match std::env::var_os("KIOSK_JOURNEY") {
        Some(path) => path.into(),
        None => process::bin().join("journey"),
    }
}

impl suite::Program for Program {
    fn journey(input: &[u8]) -> Vec<u8> {
        let output = process::output(&mut Command::new(path()), input);
        assert!(output.status.success(), "journey ended with {}", output.status);
        assert!(output.stderr.is_empty(), "journey wrote to its error output");
        output.stdout
    }
}
