//! What a command writes: to standard output, or to a file that is whole or not there.

use std::fs::{self, File, Metadata};
use std::io::{self, BufWriter, ErrorKind, StdoutLock, Write};
use std::os::unix::fs::MetadataExt;
use std::path::{Path, PathBuf};
use std::process;

use crate::input;
use crate::trouble::Trouble;

/// Standard output, written in large pieces.
pub struct Output {
    standard: BufWriter<StdoutLock<'static>>,
    /// Whether a piece could not be written: then no other is tried.
    ended: bool,
}

impl Output {
    pub fn standard() -> Output {
        Output { standard: BufWriter::with_capacity(1 << 16, io::stdout().lock()), ended: false }
    }

    fn go_on(&mut self, write: impl FnOnce(&mut dyn Write) -> io::Result<()>) -> Result<(), Trouble> {
        if self.ended {
            return Ok(());
        }
        write(&mut self.standard).map_err(|error| {
            self.ended = true;
            Trouble::with_output(&error)
        })
    }

    pub fn write(&mut self, bytes: &[u8]) -> Result<(), Trouble> {
        self.go_on(|standard| standard.write_all(bytes))
    }

    pub fn flush(&mut self) -> Result<(), Trouble> {
        self.go_on(|standard| standard.flush())
    }
}

/// Whether the output, where it is a plain file, is the input itself, by whatever path. A second hard name of it is not, since a new
/// file takes its place, unless it is what standard output goes to.
pub fn is_input(output: &Path, input: &Path) -> bool {
    let input = if input::is_standard(input) { Path::new("/dev/stdin") } else { input };
    let [Ok(there), Ok(own)] = [output, input].map(fs::metadata) else { return false };
    let other_path = || fs::canonicalize(output).ok() != fs::canonicalize(input).ok();
    let other_name = || there.nlink() > 1 && !is_standard(output) && other_path();
    there.is_file() && place(&there) == place(&own) && !other_name()
}

/// Where a file lies, whatever its names are.
fn place(file: &Metadata) -> (u64, u64) {
    (file.dev(), file.ino())
}

/// Whether a name stands for what standard output goes to, as `/dev/stdout` does: that is written on, and not replaced.
pub fn is_standard(path: &Path) -> bool {
    let [there, standard] = [path, Path::new("/dev/stdout")].map(fs::metadata);
    there.is_ok_and(|there| standard.is_ok_and(|standard| place(&there) == place(&standard)))
}

/// Writes a file. What is no plain file, as a device or a named pipe, takes the bytes as they come.
pub fn write_file(path: &Path, bytes: &[u8]) -> io::Result<()> {
    match fs::metadata(path) {
        Ok(there) if there.is_file() => {
            // One that may not be written is not replaced either.
            File::options().write(true).open(path)?;
            write_whole(&fs::canonicalize(path)?, bytes, Some(&there))
        }
        Ok(_) => File::options().write(true).open(path)?.write_all(bytes),
        Err(error) if error.kind() != ErrorKind::NotFound => Err(error),
        // A link may lead to where no file is yet.
        Err(_) => match fs::read_link(path) {
            Ok(target) => write_file(&path.with_file_name("").join(target), bytes),
            Err(_) => write_whole(path, bytes, None),
        },
    }
}

/// A new file in the same folder, under a name that no other has.
fn new_beside(path: &Path) -> io::Result<(PathBuf, File)> {
    for number in 0_u32.. {
        let beside = path.with_file_name(format!(".vcp-{}-{number}", process::id()));
        match File::create_new(&beside) {
            Err(error) if error.kind() == ErrorKind::AlreadyExists => {}
            made => return made.map(|file| (beside, file)),
        }
    }
    Err(ErrorKind::AlreadyExists.into())
}

/// Writes a plain file whole or not at all: under another name beside its place, and then renamed. A file that it replaces
/// hands on its permissions; its owner, and other names that it has, it does not. A signal meanwhile leaves the other name.
fn write_whole(path: &Path, bytes: &[u8], before: Option<&Metadata>) -> io::Result<()> {
    let (beside, mut file) = new_beside(path)?;
    let written = before
        .map_or(Ok(()), |before| file.set_permissions(before.permissions()))
        .and_then(|()| file.write_all(bytes))
        .and_then(|()| file.sync_all())
        .and_then(|()| fs::rename(&beside, path));
    if written.is_err() {
        let _ = fs::remove_file(&beside);
    }
    written
}
