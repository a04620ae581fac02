use std::fmt;
use std::fs::File;
use std::io::{self, BufWriter, Cursor, LineWriter};
use std::net::TcpStream;
#[cfg(unix)]
use std::os::unix::net::UnixStream;
use std::process::ChildStdin;

use crate::format::Format;
use crate::to_formatted_string::ToFormattedString;

/// A writer to which numbers can be printed: those of std for which num-format has it, such as files, sockets, standard
/// output, `Vec<u8>`, `String` and buffered writers. [`formatted`](crate::ToFormattedStr::formatted) serves each other one.
///
/// ```
/// use num_format::{Locale, WriteFormatted};
///
/// let mut line = String::from("total: ");
/// assert_eq!(line.write_formatted(&1234567, &Locale::de)?, 9);
/// assert_eq!(line, "total: 1.234.567");
/// # Ok::<(), std::io::Error>(())
/// ```
pub trait WriteFormatted {
    /// Writes the number, and returns the length of its text in bytes.
    ///
    /// # Errors
    ///
    /// That of the writer. An error of an `fmt::Write` is of kind [`Other`](io::ErrorKind::Other).
    fn write_formatted<F, N>(&mut self, n: &N, format: &F) -> Result<usize, io::Error>
    where
        F: Format,
        N: ToFormattedString;
}

/// Implements the trait for writers of bytes, by `write_all`. Each has its generics in brackets.
macro_rules! impl_for_io_writers {
    ($([$($generics:tt)*] $writer:ty),* $(,)?) => {$(
        impl<$($generics)*> WriteFormatted for $writer {
            fn write_formatted<F, N>(&mut self, n: &N, format: &F) -> Result<usize, io::Error>
            where
                F: Format,
                N: ToFormattedString,
            {
                n.read_to_io_writer(self, format)
            }
        }
    )*};
}

/// Implements it for writers of text, by `write_str`.
macro_rules! impl_for_fmt_writers {
    ($([$($generics:tt)*] $writer:ty),* $(,)?) => {$(
        impl<$($generics)*> WriteFormatted for $writer {
            fn write_formatted<F, N>(&mut self, n: &N, format: &F) -> Result<usize, io::Error>
            where
                F: Format,
                N: ToFormattedString,
            {
                n.read_to_fmt_writer(self, format)
                    .map_err(|error| io::Error::new(io::ErrorKind::Other, error))
            }
        }
    )*};
}

/// Implements it for writers of bytes and for mutable references to them.
macro_rules! impl_for_io_writers_and_references {
    ($([$($generics:tt)*] $writer:ty),* $(,)?) => {
        impl_for_io_writers! { $(
            [$($generics)*] $writer,
            [$($generics)*] &mut $writer,
        )* }
    };
}

impl_for_io_writers_and_references! {
    [] File,
    [] TcpStream,
    [] ChildStdin,
    [] Vec<u8>,
    [] io::Sink,
    [] io::Stderr,
    [] io::Stdout,
    [] io::StderrLock<'_>,
    [] io::StdoutLock<'_>,
    [] Cursor<Box<[u8]>>,
    [] Cursor<Vec<u8>>,
    [] Cursor<&mut [u8]>,
    [] Cursor<&mut Vec<u8>>,
    [W: io::Write + ?Sized] Box<W>,
    [W: io::Write] BufWriter<W>,
    [W: io::Write] LineWriter<W>,
}

impl_for_io_writers! {
    [] &mut [u8],
    [] &File,
    [] &TcpStream,
}

#[cfg(unix)]
impl_for_io_writers_and_references! {
    [] UnixStream,
}

#[cfg(unix)]
impl_for_io_writers! {
    [] &UnixStream,
}

impl_for_fmt_writers! {
    [] String,
    [] &mut String,
    [] &mut fmt::Formatter<'_>,
}
