//! Chez Scheme and Guile, where they are on the path.

use std::io::Write;
use std::process::{Command, Stdio};

/// What an interpreter prints for a script; none where the program is not on the path.
fn printed(program: &str, arguments: &[&str], script: &str) -> Option<String> {
    let mut child = Command::new(program).args(arguments).stdin(Stdio::piped()).stdout(Stdio::piped()).stderr(Stdio::null()).spawn().ok()?;
    child.stdin.take()?.write_all(script.as_bytes()).ok()?;
    let out = child.wait_with_output().ok()?;
    Some(String::from_utf8_lossy(&out.stdout).into_owned())
}

pub fn chez(script: &str) -> Option<String> {
    ["scheme", "chezscheme"].iter().find_map(|program| printed(program, &["-q"], script))
}

pub fn guile(script: &str) -> Option<String> {
    printed("guile", &["--no-auto-compile", "-q", "/dev/stdin"], script)
}
