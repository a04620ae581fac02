//! Each writer of std.
#![cfg(feature = "std")]

use std::fmt;
use std::fs::{self, File};
use std::io::{self, BufWriter, Cursor, LineWriter, Write};
use std::process::{Command, Stdio};

use num_format::{Locale, ToFormattedString, WriteFormatted};

/// Writes 1,000 and then -7 to a writer, and checks the lengths that are returned.
fn write<W: WriteFormatted>(mut writer: W) -> W {
    assert_eq!(writer.write_formatted(&1000, &Locale::en).unwrap(), 5);
    assert_eq!(writer.write_formatted(&-7, &Locale::en).unwrap(), 2);
    writer
}

#[test]
fn strings_and_vectors() {
    assert_eq!(write(String::new()), "1,000-7");
    assert_eq!(write(Vec::new()), b"1,000-7");
    let (mut text, mut bytes) = (String::from("x"), Vec::from("x"));
    write(&mut text);
    write(&mut bytes);
    assert_eq!((&*text, &*bytes), ("x1,000-7", &b"x1,000-7"[..]));
}

#[test]
fn cursors_and_slices() {
    assert_eq!(write(Cursor::new(Vec::new())).into_inner(), b"1,000-7");
    let boxed: Box<[u8]> = vec![b'.'; 8].into();
    assert_eq!(&*write(Cursor::new(boxed)).into_inner(), b"1,000-7.");
    let mut bytes = [b'.'; 8];
    write(&mut Cursor::new(&mut bytes[..]));
    assert_eq!(&bytes, b"1,000-7.");
    let mut vector = Vec::new();
    write(Cursor::new(&mut vector));
    assert_eq!(vector, b"1,000-7");
    let mut bytes = [b'.'; 8];
    let left = write(&mut bytes[..]);
    assert_eq!(left, b".");
    assert_eq!(&bytes, b"1,000-7.");
}

#[test]
fn a_slice_without_space() {
    let mut bytes = [b'.'; 4];
    let error = (&mut bytes[..]).write_formatted(&1000, &Locale::en).unwrap_err();
    assert_eq!(error.kind(), io::ErrorKind::WriteZero);
    assert_eq!(&bytes, b"1,00");
}

#[test]
fn buffered_writers_and_boxes() {
    assert_eq!(write(BufWriter::new(Vec::new())).into_inner().unwrap(), b"1,000-7");
    assert_eq!(write(LineWriter::new(Vec::new())).into_inner().unwrap(), b"1,000-7");
    let mut bytes = Vec::new();
    let boxed: Box<dyn Write + '_> = Box::new(&mut bytes);
    drop(write(boxed));
    assert_eq!(bytes, b"1,000-7");
}

/// What would write to this program's own output is only shown to be a writer.
#[test]
fn standard_streams() {
    fn is_writer<W: WriteFormatted>() {}

    is_writer::<io::Stdout>();
    is_writer::<io::Stderr>();
    is_writer::<io::StdoutLock<'_>>();
    is_writer::<io::StderrLock<'_>>();
    is_writer::<&mut io::Stdout>();
    is_writer::<&mut io::Stderr>();
    is_writer::<&mut io::StdoutLock<'_>>();
    is_writer::<&mut io::StderrLock<'_>>();
    write(io::sink());
    write(&mut io::sink());
}

#[test]
fn files() {
    let path = std::env::temp_dir().join(format!("num_format_writers_{}", std::process::id()));
    let mut file = write(File::create(&path).unwrap());
    write(&file);
    write(&mut file);
    let found = fs::read_to_string(&path).unwrap();
    fs::remove_file(&path).unwrap();
    assert_eq!(found, "1,000-7".repeat(3));
}

#[cfg(unix)]
#[test]
fn a_childs_input() {
    let mut child = Command::new("cat").stdin(Stdio::piped()).stdout(Stdio::piped()).spawn().unwrap();
    drop(write(child.stdin.take().unwrap()));
    assert_eq!(child.wait_with_output().unwrap().stdout, b"1,000-7");
}

#[cfg(unix)]
#[test]
fn sockets() {
    use std::io::Read;
    use std::net::{TcpListener, TcpStream};
    use std::os::unix::net::UnixStream;

    let (mut reader, writer) = UnixStream::pair().unwrap();
    write(&writer);
    drop(write(writer));
    let mut found = String::new();
    reader.read_to_string(&mut found).unwrap();
    assert_eq!(found, "1,000-71,000-7");

    let listener = TcpListener::bind("127.0.0.1:0").unwrap();
    let writer = TcpStream::connect(listener.local_addr().unwrap()).unwrap();
    let (mut reader, _) = listener.accept().unwrap();
    write(&writer);
    drop(write(writer));
    let mut found = String::new();
    reader.read_to_string(&mut found).unwrap();
    assert_eq!(found, "1,000-71,000-7");
}

struct Total(i64);

impl fmt::Display for Total {
    fn fmt(&self, mut f: &mut fmt::Formatter<'_>) -> fmt::Result {
        f.write_str("total ")?;
        f.write_formatted(&self.0, &Locale::en).map_err(|_| fmt::Error)?;
        Ok(())
    }
}

#[test]
fn formatters() {
    assert_eq!(Total(-1000).to_string(), "total -1,000");
}

/// A writer that takes nothing.
struct Full;

impl Write for Full {
    fn write(&mut self, _: &[u8]) -> io::Result<usize> {
        Err(io::ErrorKind::PermissionDenied.into())
    }

    fn flush(&mut self) -> io::Result<()> {
        Ok(())
    }
}

impl fmt::Write for Full {
    fn write_str(&mut self, _: &str) -> fmt::Result {
        Err(fmt::Error)
    }
}

#[test]
fn errors_of_writers() {
    let mut full: Box<dyn Write> = Box::new(Full);
    let error = full.write_formatted(&1, &Locale::en).unwrap_err();
    assert_eq!(error.kind(), io::ErrorKind::PermissionDenied);
    assert_eq!(1.read_to_fmt_writer(Full, &Locale::en), Err(fmt::Error));
    assert!(1.read_to_io_writer(Full, &Locale::en).is_err());
}
