//! Files and standard streams: how they are opened, and an output that is flushed before its program
//! waits for more input.

use crate::closed::{Stream, is_closed};
use crate::end::End;
use crate::import::text_in;
use crate::terminal::Progress;
use crate::text::STANDARD_INPUT;
use std::cell::RefCell;
use std::fs::File;
use std::io::{self, BufWriter, Read, Stderr, Write};
#[cfg(unix)]
use std::os::fd::AsFd;
use uart_trace::MOST_READ;

// Returns a file for a standard stream. Unlike the stream itself, the file reports each error: the
// standard library takes a stream that cannot be used for an empty one.
#[cfg(unix)]
fn file_of(stream: impl AsFd) -> io::Result<File> {
    Ok(File::from(stream.as_fd().try_clone_to_owned()?))
}

// A page in a browser has no files, and gives what it reads as bytes.
#[cfg(not(unix))]
fn file_of<T>(_: T) -> io::Result<File> {
    Err(io::ErrorKind::Unsupported.into())
}

// Returns an error if a stream was closed when the program began.
fn check_open(stream: Stream) -> io::Result<()> {
    if is_closed(stream) {
        return Err(io::Error::other("it is closed"));
    }
    Ok(())
}

/// Returns the file of standard input.
///
/// # Errors
///
/// The error of the system, or that it was closed when the program began.
pub fn standard_input() -> io::Result<File> {
    check_open(Stream::Input)?;
    file_of(io::stdin())
}

/// Returns the file of standard output.
///
/// # Errors
///
/// The error of the system, or that it was closed when the program began.
pub fn standard_output() -> io::Result<File> {
    check_open(Stream::Output)?;
    file_of(io::stdout())
}

/// Opens a file for reading. The name `-` stands for standard input.
///
/// # Errors
///
/// The error of the file.
pub fn open(file: &str) -> io::Result<File> {
    match file {
        STANDARD_INPUT => standard_input(),
        _ => File::open(file),
    }
}

/// Returns what a reader has, or the first `most` bytes if it has more.
///
/// # Errors
///
/// The error of the reader, or `ErrorKind::OutOfMemory`.
pub fn first_bytes(reader: impl Read, most: u64) -> io::Result<Vec<u8>> {
    let mut bytes = Vec::new();
    reader.take(most).read_to_end(&mut bytes)?;
    Ok(bytes)
}

/// Returns what a file has, or the first `most` bytes if it has more.
///
/// # Errors
///
/// How a program ends that cannot read the file.
pub fn bytes_of(file: &str, most: u64) -> Result<Vec<u8>, End> {
    open(file)
        .and_then(|opened| first_bytes(opened, most))
        .map_err(|cause| End::unread(file, cause))
}

/// Returns the text of a file, without what programs leave around its lines, or of its first `most` bytes if it has more.
///
/// # Errors
///
/// How a program ends that cannot read the file, or to which it is no text.
pub fn text_of(file: &str, most: u64) -> Result<Vec<u8>, End> {
    text_in(bytes_of(file, most)?).map_err(|encoding| End::encoded(file, encoding))
}

/// Returns the script that a file has, with its comments. Of one that is too long so much is read that it is refused.
///
/// # Errors
///
/// How a program ends that cannot read the file, or to which it is no text.
pub fn script_of(file: &str) -> Result<Vec<u8>, End> {
    // Each line may have a byte more than the proved language sees, and the first one has a mark in front.
    text_of(file, 2 * MOST_READ + 3)
}

/// Prints bytes to standard output.
///
/// # Errors
///
/// How a program ends that cannot write standard output.
pub fn print(bytes: &[u8]) -> Result<(), End> {
    standard_output()
        .and_then(|mut out| out.write_all(bytes))
        .map_err(End::unwritten)
}

/// An output that keeps what is written until it is flushed, beside a line on the terminal that says
/// how far a file is read. That line is taken away before anything is written.
///
/// If a write fails, the error is kept too, and nothing more is written.
#[derive(Debug)]
pub struct Output<W: Write> {
    writer: BufWriter<W>,
    failure: Option<io::Error>,
    progress: Option<Progress<Stderr>>,
}

impl<W: Write> Output<W> {
    /// Returns an output to this writer.
    pub fn new(writer: W) -> Self {
        Output {
            writer: BufWriter::new(writer),
            failure: None,
            progress: None,
        }
    }

    // Keeps the error of a write, and returns another one for it.
    fn kept<T>(&mut self, outcome: io::Result<T>) -> io::Result<T> {
        outcome.map_err(|cause| {
            let kind = cause.kind();
            self.failure.get_or_insert(cause);
            io::Error::from(kind)
        })
    }

    fn stopped(&self) -> io::Result<()> {
        match &self.failure {
            Some(cause) => Err(cause.kind().into()),
            None => Ok(()),
        }
    }

    fn clear_progress(&mut self) {
        if let Some(progress) = &mut self.progress {
            progress.clear();
        }
    }

    fn advance(&mut self, count: usize) {
        if let Some(progress) = &mut self.progress {
            progress.advance(count);
        }
    }

    /// Flushes what is left.
    ///
    /// # Errors
    ///
    /// The first error of the writer.
    pub fn finish(mut self) -> io::Result<()> {
        let flushed = self.flush();
        self.clear_progress();
        // After a failed write the buffer must not be written again when it is dropped.
        let _ = self.writer.into_parts();
        match self.failure {
            Some(cause) => Err(cause),
            None => flushed,
        }
    }
}

impl<W: Write> Write for Output<W> {
    fn write(&mut self, bytes: &[u8]) -> io::Result<usize> {
        self.stopped()?;
        if bytes.len() > self.writer.capacity() - self.writer.buffer().len() {
            self.clear_progress();
        }
        let outcome = self.writer.write(bytes);
        self.kept(outcome)
    }

    fn flush(&mut self) -> io::Result<()> {
        self.stopped()?;
        if !self.writer.buffer().is_empty() {
            self.clear_progress();
        }
        let outcome = self.writer.flush();
        self.kept(outcome)
    }
}

/// A reader of a long file. Before each read the output is flushed: so whatever was found in a file
/// that still grows is seen before the program waits for more of it.
// A flush after each finding would show as much, and write a million findings in a million parts.
#[derive(Debug)]
pub struct Watched<'a, R, W: Write> {
    reader: R,
    output: &'a RefCell<Output<W>>,
}

impl<'a, W: Write> Watched<'a, File, W> {
    /// Opens a file, whose progress is shown behind this word.
    ///
    /// # Errors
    ///
    /// The error of the file.
    pub fn open(file: &str, word: &str, output: &'a RefCell<Output<W>>) -> io::Result<Self> {
        let reader = open(file)?;
        let data = reader.metadata()?;
        let total = data.is_file().then_some(data.len());
        let progress = Progress::on_terminal(format!("{word} {file}"), total);
        output.borrow_mut().progress = Some(progress);
        Ok(Watched { reader, output })
    }
}

impl<R: Read, W: Write> Read for Watched<'_, R, W> {
    fn read(&mut self, buf: &mut [u8]) -> io::Result<usize> {
        self.output.borrow_mut().flush()?;
        let count = self.reader.read(buf)?;
        self.output.borrow_mut().advance(count);
        Ok(count)
    }
}

#[cfg(test)]
mod tests {
    use super::*;
    use std::io::ErrorKind;

    // A reader that fails after so many bytes.
    struct Failing {
        left: usize,
    }

    impl Read for Failing {
        fn read(&mut self, buf: &mut [u8]) -> io::Result<usize> {
            if self.left == 0 {
                return Err(ErrorKind::BrokenPipe.into());
            }
            let count = self.left.min(buf.len());
            self.left -= count;
            Ok(count)
        }
    }

    #[test]
    fn bytes_before_a_failure() {
        for (left, most, count) in [
            (5, 3, Some(3)),
            (5, 5, Some(5)),
            (5, 6, None),
            (0, 0, Some(0)),
        ] {
            let bytes = first_bytes(Failing { left }, most);
            assert_eq!(bytes.ok().map(|bytes| bytes.len()), count);
        }
    }

    #[test]
    fn files_that_are_read() {
        for (file, count) in [
            ("/dev/null", Some(0)),
            ("/dev/zero", Some(1000)),
            ("/dev/nowhere", None),
            ("/", None),
        ] {
            let bytes = bytes_of(file, 1000);
            assert_eq!(bytes.ok().map(|bytes| bytes.len()), count, "at {file}");
        }
    }

    // A writer to a full disk, which counts how often it is asked.
    struct Full(usize);

    impl Write for &mut Full {
        fn write(&mut self, _bytes: &[u8]) -> io::Result<usize> {
            self.0 += 1;
            Err(ErrorKind::StorageFull.into())
        }

        fn flush(&mut self) -> io::Result<()> {
            Ok(())
        }
    }

    #[test]
    fn a_failed_write_is_reported_and_not_tried_again() {
        let mut full = Full(0);
        let mut output = Output::new(&mut full);
        output.write_all(b"found").unwrap();
        assert!(output.flush().is_err());
        assert!(output.write_all(b"more").is_err());
        assert_eq!(output.finish().unwrap_err().kind(), ErrorKind::StorageFull);
        assert_eq!(full.0, 1);
    }
}
