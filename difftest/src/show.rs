//! The show program's text.

use std::io::Write;
use std::path::Path;
use std::process::{Command, Output, Stdio};

/// Where the programs are.
const PROGRAMS: &str = concat!(env!("CARGO_MANIFEST_DIR"), "/../target/bin");

/// Runs show on a snapshot and holds its text against the reference's.
pub fn differs(snapshot: &[u8], shown: &mut u64) -> Option<String> {
    *shown += 1;
    let expected = reference::show(snapshot);
    match text(snapshot) {
        Err(error) => Some(format!("show did not run: {error}")),
        Ok(text) if text == expected => None,
        Ok(text) => {
            let line = text
                .lines()
                .zip(expected.lines())
                .position(|(ours, theirs)| ours != theirs);
            let line = line.unwrap_or_else(|| text.lines().count().min(expected.lines().count()));
            let of = |text: &str| text.lines().nth(line).unwrap_or("(nothing)").to_string();
            Some(format!("show prints '{}' as line {}, the reference '{}'", of(&text), line + 1, of(&expected)))
        }
    }
}

/// What show prints for this input.
pub fn text(snapshot: &[u8]) -> std::io::Result<String> {
    let output = output("show", snapshot, Stdio::inherit())?;
    Ok(String::from_utf8_lossy(&output.stdout).into_owned())
}

/// What a program writes for this input.
pub fn output(program: &str, input: &[u8], error: Stdio) -> std::io::Result<Output> {
    let mut child = Command::new(Path::new(PROGRAMS).join(program))
        .stdin(Stdio::piped())
        .stdout(Stdio::piped())
        .stderr(error)
        .spawn()?;
    if let Some(mut to) = child.stdin.take() {
        // A program that refuses early may leave input unread.
        let _ = to.write_all(input);
    }
    child.wait_with_output()
}
