//! The files that a call writes. None of them is an input, by whatever name; and what was there
//! before is there until the whole of the new file is.

use crate::answer::{named_or_standard, Stop};
use crate::args::Args;
use crate::input::{name, STANDARD};
use std::ffi::{OsStr, OsString};
use std::fs::{self, File, Metadata};
use std::io::{self, ErrorKind, Write};
use std::os::fd::{AsFd, BorrowedFd};
use std::os::unix::fs::{fchown, MetadataExt};
use std::path::{Path, PathBuf};

/// The options that name a file to be written.
const OPTIONS: [&str; 3] = ["out", "svg", "svg-day"];

/// Whether the files that a call is to write have names, each its own, and none is an input or has
/// the answer. It is asked before anything is read, so that no call ends with half of its files.
pub fn check(args: &Args) -> Result<(), Stop> {
    let mut places = Vec::new();
    for option in OPTIONS {
        let Some(path) = args.value(option) else {
            continue;
        };
        if path == STANDARD {
            return Err(Stop::Use(format!(
                "--{option}: '{STANDARD}' would be standard output; it takes a file's name"
            )));
        }
        apart(path, args)?;
        let place = place(path);
        if places.contains(&place) {
            return Err(Stop::Use("two pictures can't go to one file".to_string()));
        }
        places.push(place);
    }
    Ok(())
}

/// Whether a file that is to be written is neither an input nor standard output: what goes there
/// would be gone with the file that is replaced.
fn apart(path: &OsStr, args: &Args) -> Result<(), Stop> {
    let found = fs::metadata(path).ok();
    let inputs = named_or_standard(args);
    if let Some(input) = inputs.iter().find(|input| is_input(found.as_ref(), input)) {
        let (path, input) = (name(path), name(input));
        let says = format!("{path} is the input {input}: nothing is written over it");
        return Err(Stop::Failed(says));
    }
    let standard = open(io::stdout().as_fd()).ok();
    match same_file(found.as_ref(), standard.as_ref()) {
        true => Err(Stop::Failed(format!(
            "{} is standard output: nothing is written over it",
            name(path)
        ))),
        false => Ok(()),
    }
}

/// Where a file will lie, whatever it is called: its folder without links, and its name there.
fn place(path: &OsStr) -> PathBuf {
    let path = behind_links(Path::new(path));
    match (folder_of(&path).canonicalize(), path.file_name()) {
        (Ok(folder), Some(name)) => folder.join(name),
        _ => path,
    }
}

fn folder_of(path: &Path) -> &Path {
    match path.parent() {
        Some(folder) if folder != Path::new("") => folder,
        _ => Path::new("."),
    }
}

/// Writes a file that a call asked for.
pub fn write(path: &OsStr, bytes: &[u8]) -> Result<(), Stop> {
    let says = |error| format!("{} can't be written: {error}", name(path));
    replace(Path::new(path), bytes).map_err(|error| Stop::Failed(says(error)))
}

/// Whether standard output is none of these inputs. The shell has perhaps emptied one by now, or what
/// is answered comes to stand behind it: neither is what the person meant.
pub fn apart_from_standard_output(inputs: &[OsString]) -> Result<(), Stop> {
    let found = open(io::stdout().as_fd()).ok();
    match inputs.iter().find(|input| is_input(found.as_ref(), input)) {
        Some(input) => Err(Stop::Failed(format!(
            "standard output is the input {}",
            name(input)
        ))),
        None => Ok(()),
    }
}

/// Whether a file that was found is an input.
fn is_input(found: Option<&Metadata>, input: &OsStr) -> bool {
    let of_input = match input == STANDARD {
        true => open(io::stdin().as_fd()),
        false => fs::metadata(input),
    };
    same_file(found, of_input.ok().as_ref())
}

/// Whether two are one file. Devices and pipes may be read and written at once.
fn same_file(one: Option<&Metadata>, other: Option<&Metadata>) -> bool {
    let which = |file: &Metadata| (file.dev(), file.ino());
    one.is_some_and(|one| one.is_file() && other.is_some_and(|other| which(one) == which(other)))
}

/// What a stream is.
fn open(stream: BorrowedFd) -> io::Result<Metadata> {
    File::from(stream.try_clone_to_owned()?).metadata()
}

/// Puts a new file where the old one is, if there is one, by a rename. What is no file, as a device,
/// is written as it is.
fn replace(path: &Path, bytes: &[u8]) -> io::Result<()> {
    let old = match fs::metadata(path) {
        Ok(found) if !found.is_file() => return fs::write(path, bytes),
        Ok(found) => Some(found),
        Err(error) if error.kind() == ErrorKind::NotFound => None,
        Err(error) => return Err(error),
    };
    let path = behind_links(path);
    if old.is_some() {
        // A file that mustn't be written mustn't be replaced either.
        File::options().append(true).open(&path)?;
    }
    let (beside, file) = beside(&path)?;
    let filled = fill(file, old, bytes).and_then(|()| fs::rename(&beside, &path));
    if filled.is_err() {
        // The first error is the one to tell.
        let _ = fs::remove_file(&beside);
    }
    filled
}

/// The most links that lead to a file.
const LINKS: usize = 40;

/// The path that a link leads to, and any other as it is: the link stays where the file is replaced.
fn behind_links(path: &Path) -> PathBuf {
    let mut path = path.to_path_buf();
    for _ in 0..LINKS {
        let Ok(to) = fs::read_link(&path) else {
            break;
        };
        path = folder_of(&path).join(to);
    }
    path
}

/// A new file in the folder of another. Its name is short, as that of the other may be as long as
/// names can be.
fn beside(path: &Path) -> io::Result<(PathBuf, File)> {
    let mut number = 0;
    loop {
        let name = format!(".bench-{}-{number}.tmp", std::process::id());
        let at = folder_of(path).join(name);
        match File::options().write(true).create_new(true).open(&at) {
            Err(error) if error.kind() == ErrorKind::AlreadyExists && number < 100 => number += 1,
            opened => return Ok((at, opened?)),
        }
    }
}

/// Fills a new file, which gets the permissions of the old one before it holds anything. It is
/// written through to the disk, which may be full even when every write went well.
fn fill(mut file: File, old: Option<Metadata>, bytes: &[u8]) -> io::Result<()> {
    if let Some(old) = old {
        // Only root can give a file away: else it belongs to whoever wrote it.
        let _ = fchown(&file, Some(old.uid()), Some(old.gid()));
        file.set_permissions(old.permissions())?;
    }
    file.write_all(bytes)?;
    file.sync_all()
}
