//! Pictures by `dot`, the program of Graphviz.
#![forbid(unsafe_code)]

use std::io::{self, ErrorKind, Write};
use std::process::{Command, Output, Stdio};
use std::thread;

/// The picture of a text in Graphviz's language, or why there is none.
pub(crate) fn drawn(text: &str, form: &str) -> Result<Vec<u8>, String> {
    match run(text, form) {
        Ok(output) if output.status.success() => Ok(output.stdout),
        Ok(output) => Err(format!(
            "dot, of Graphviz, failed: {}",
            String::from_utf8_lossy(&output.stderr).trim_end()
        )),
        Err(error) if error.kind() == ErrorKind::NotFound => Err(format!(
            "{form} is drawn by dot, of Graphviz, which is not installed here; -T dot prints what it would draw"
        )),
        Err(error) => Err(format!("dot, of Graphviz, cannot be run: {error}")),
    }
}

// The text is handed over beside the reading of the picture, as either may fill its pipe. A dot that ends before it has read all tells
// why by its status.
fn run(text: &str, form: &str) -> io::Result<Output> {
    let mut dot = Command::new("dot")
        .arg(format!("-T{form}"))
        .stdin(Stdio::piped())
        .stdout(Stdio::piped())
        .stderr(Stdio::piped())
        .spawn()?;
    let stdin = dot.stdin.take();
    thread::scope(|scope| {
        scope.spawn(move || stdin.map(|mut stdin| stdin.write_all(text.as_bytes())));
        dot.wait_with_output()
    })
}
