//! Where results go: files are replaced as a whole, devices and pipes are written straight.
use crate::fault::Fault;
use crate::load::STANDARD_INPUT;
use crate::network::Network;
use crate::whole::{followed, Ready};
use std::fs::{self, Metadata, OpenOptions};
use std::io::{self, Write};
use std::os::unix::fs::MetadataExt;
use std::path::Path;

/// Names of standard output.
const STANDARD_OUTPUT: [&str; 4] = ["-", "/dev/stdout", "/dev/fd/1", "/proc/self/fd/1"];

pub fn is_standard_output(name: &str) -> bool {
    STANDARD_OUTPUT.contains(&name)
}

/// Writes to a file, or to standard output where its name is `-`.
pub fn written(name: &str, bytes: &[u8]) -> Result<(), Fault> {
    all_written(&[(name.to_string(), bytes.to_vec())])
}

/// Writes files by name: none takes its place before all of them are whole.
pub fn all_written(files: &[(String, Vec<u8>)]) -> Result<(), Fault> {
    let mut ready = Ready::default();
    let mut straight = Vec::new();
    for (name, bytes) in files {
        match fs::metadata(name) {
            _ if is_standard_output(name) => straight.push((name, bytes)),
            Ok(kind) if kind.is_dir() => return Err(Fault::file(name, "expected a file to write, found a folder")),
            Ok(kind) if !kind.is_file() || is_handle(name) => straight.push((name, bytes)),
            _ => {
                let path = followed(Path::new(name)).map_err(|error| Fault::file(name, error))?;
                ready.add(path, bytes).map_err(|error| Fault::file(name, error))?;
            }
        }
    }
    for (name, bytes) in straight {
        if is_standard_output(name) {
            sent(bytes)?;
        } else {
            let opened = OpenOptions::new().write(true).open(name);
            opened.and_then(|mut file| file.write_all(bytes)).map_err(|error| Fault::file(name, error))?;
        }
    }
    ready.take_places().map_err(|(path, error)| Fault::file(path.display().to_string(), error))
}

/// Writes text to standard output.
pub fn printed(text: &str) -> Result<(), Fault> {
    sent(text.as_bytes())
}

/// Writes to standard output; a reader that has gone away isn't a fault.
fn sent(bytes: &[u8]) -> Result<(), Fault> {
    let mut out = io::stdout().lock();
    match out.write_all(bytes).and_then(|()| out.flush()) {
        Err(error) if error.kind() != io::ErrorKind::BrokenPipe => Err(Fault::file("standard output", error)),
        _ => Ok(()),
    }
}

/// A fault where the name is that of a file that the network was read from, under whatever path.
pub fn not_input(name: &str, network: &Network) -> Result<(), Fault> {
    let same = |a: &Metadata, b: &Metadata| a.is_file() && (a.dev(), a.ino()) == (b.dev(), b.ino());
    let output = if is_standard_output(name) { "/proc/self/fd/1" } else { name };
    let Ok(output) = fs::metadata(output) else { return Ok(()) };
    for source in &network.sources {
        let path = if source.path == STANDARD_INPUT { "/proc/self/fd/0" } else { &source.path };
        if fs::metadata(path).is_ok_and(|input| same(&output, &input)) {
            return Err(Fault::file(name, format!("expected another file to write than the input {}", source.path)));
        }
    }
    Ok(())
}

/// Whether a name is that of an open file of a process, which has no place of its own.
fn is_handle(name: &str) -> bool {
    name.starts_with("/dev/fd/") || name.starts_with("/proc/")
}
