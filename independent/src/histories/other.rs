//! The other program, which is given a script on its standard input.

use std::io::{Read, Write};
use std::path::{Path, PathBuf};
use std::process::{Command, Stdio};
use std::sync::mpsc;
use std::thread;
use std::time::Duration;

const PATIENCE_WITH_A_BATCH: Duration = Duration::from_secs(300);
const PATIENCE_WITH_A_HISTORY: Duration = Duration::from_secs(10);

#[derive(Clone, Debug)]
pub struct OtherProgram {
    path: PathBuf,
    patience: Duration,
    is_silent: bool,
}

impl OtherProgram {
    pub fn at(path: &Path) -> OtherProgram {
        OtherProgram { path: path.to_path_buf(), patience: PATIENCE_WITH_A_BATCH, is_silent: false }
    }

    /// The same for single histories, many times over: with less patience, and without its standard error.
    pub fn for_single_histories(&self) -> OtherProgram {
        OtherProgram { patience: PATIENCE_WITH_A_HISTORY, is_silent: true, ..self.clone() }
    }

    /// What it prints; how it ended badly, if it did, stands behind that in a line of its own.
    pub fn answer(&self, script: &str) -> Result<String, String> {
        let mut child = Command::new(&self.path)
            .stdin(Stdio::piped())
            .stdout(Stdio::piped())
            .stderr(if self.is_silent { Stdio::null() } else { Stdio::inherit() })
            .spawn()
            .map_err(|error| format!("{}: {error}", self.path.display()))?;
        let mut input = child.stdin.take().ok_or("no standard input")?;
        let mut output = child.stdout.take().ok_or("no standard output")?;
        let script = script.as_bytes().to_vec();
        // A program that ends early leaves the rest unread; its output tells that.
        let writer = thread::spawn(move || drop(input.write_all(&script)));
        let (sender, receiver) = mpsc::channel();
        let reader = thread::spawn(move || {
            let mut octets = Vec::new();
            let read = output.read_to_end(&mut octets).map(|_| octets);
            drop(sender.send(read));
        });
        let answered = receiver.recv_timeout(self.patience);
        if answered.is_err() {
            drop(child.kill());
        }
        let status = child.wait().map_err(|error| error.to_string())?;
        drop((writer.join(), reader.join()));
        let octets = match answered {
            Ok(read) => read.map_err(|error| error.to_string())?,
            Err(_) => b"(no end within the time)\n".to_vec(),
        };
        let mut text = String::from_utf8_lossy(&octets).into_owned();
        if !status.success() {
            text.push_str(&format!("({status})\n"));
        }
        Ok(text)
    }
}
