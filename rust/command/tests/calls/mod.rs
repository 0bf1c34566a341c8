//! Calls of the command within a test, and files for them.

use command::answer::{Status, Streams};
use std::ffi::OsString;
use std::path::PathBuf;
use std::sync::atomic::{AtomicU64, Ordering};

/// What a call came to: its status, standard output and standard error.
pub struct Ended {
    pub status: Status,
    pub out: String,
    pub err: String,
}

pub fn call(words: &[&str]) -> Ended {
    let words: Vec<OsString> = words.iter().map(OsString::from).collect();
    let (mut out, mut err) = (Vec::new(), Vec::new());
    let mut streams = Streams {
        out: &mut out,
        err: &mut err,
        out_watched: false,
        err_watched: false,
    };
    let status = command::run(&words, &mut streams);
    // a packed dossier is no text
    let text = |bytes: Vec<u8>| String::from_utf8_lossy(&bytes).into_owned();
    Ended {
        status,
        out: text(out),
        err: text(err),
    }
}

/// A file of its own that is gone when the test is.
pub struct Kept(PathBuf);

impl Kept {
    pub fn new(bytes: &[u8]) -> Kept {
        static NUMBER: AtomicU64 = AtomicU64::new(0);
        let number = NUMBER.fetch_add(1, Ordering::Relaxed);
        let name = format!("bench-answers-{}-{number}", std::process::id());
        let path = std::env::temp_dir().join(name);
        std::fs::write(&path, bytes).expect("a temporary file");
        Kept(path)
    }

    pub fn name(&self) -> &str {
        self.0.to_str().expect("a path that is text")
    }
}

impl Drop for Kept {
    fn drop(&mut self) {
        let _ = std::fs::remove_file(&self.0);
    }
}
