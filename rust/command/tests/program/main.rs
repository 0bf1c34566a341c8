//! The command as people run it: a process with files, pipes and a status.

#[path = "../example/mod.rs"]
mod example;
mod files;
mod pipes;
mod process;

use example::example;
use model::make::written::r1;
use process::{call, text, Folder, PROGRAM};
use std::io::Read;
use std::path::Path;
use std::process::{Command, Stdio};

#[test]
fn standard_input_as_text_and_bytes() {
    let unpacked = call(&["unpack"], &r1());
    let packed = call(&["pack", "-"], &unpacked.stdout);
    assert_eq!(packed.stdout, r1());
    for input in [&r1(), &unpacked.stdout] {
        let levels = call(&["levels", "--hour", "0"], input);
        assert!(text(&levels.stdout).starts_with("profile 1\nenergy 1 0.0 100.0 42.30\n"));
        assert_eq!(levels.status.code(), Some(0));
    }
}

#[test]
fn statuses() {
    let unheld = ["test", "--hour=0", "--condition=narrow", "--offer=1@1"];
    for (words, input, status) in [
        (&["check"][..], &r1()[..], 0),
        (&["check"], b"", 1),
        (&["check"], b"FU issue=1", 1),
        (&unheld, &r1(), 1),
        (&["levels"], &r1(), 2),
        (&["what"], b"", 2),
        (&[], b"", 2),
        (&["check", "no-such-file"], b"", 2),
        (&["check", "--help"], b"", 0),
    ] {
        let ended = call(words, input);
        assert_eq!(ended.status.code(), Some(status), "{words:?}");
        assert_eq!(ended.stderr.is_empty(), status == 0, "{words:?}");
        assert_eq!(ended.stdout.is_empty(), status != 0, "{words:?}");
    }
}

/// A line of `--help` names every option that the command takes.
#[test]
fn help_is_there_for_every_command() {
    for command in [
        "new", "pack", "unpack", "check", "levels", "explain", "test", "offers", "day",
    ] {
        for words in [&[command, "--help"][..], &["help", command]] {
            let help = text(&call(words, b"").stdout);
            assert!(help.starts_with(&format!("bench {command} ")), "{help}");
        }
        for words in [
            &["--help"][..],
            &["help"],
            &["help", "help"],
            &["help", "-h"],
        ] {
            assert!(text(&call(words, b"").stdout).contains(&format!("bench {command} ")));
        }
    }
}

#[test]
fn an_input_without_end_is_too_long() {
    if Path::new("/dev/zero").exists() {
        let ended = call(&["check", "/dev/zero"], b"");
        assert!(text(&ended.stderr).starts_with("/dev/zero: refused 13 at 0: "));
        assert_eq!(ended.status.code(), Some(1));
        let ended = call(&["pack", "/dev/zero"], b"");
        assert_eq!(ended.status.code(), Some(1));
    }
}

/// A refused call leaves the file alone that it would have written. An input without a record is one
/// that wasn't written, and no dossier.
#[test]
fn nothing_is_lost() {
    let folder = Folder::new();
    let out = &folder.file("out", "kept")[..];
    for (words, input) in [
        (&["pack", "--out", out][..], &b"FU issue=1"[..]),
        (&["pack", "--out", out], b""),
        (&["pack", "--out", out], b"# nothing yet\n"),
        (&["unpack", "--out", out], b"FU issue=1"),
        (&["unpack", "--out", out], b"LC issue=1"),
        (&["unpack", "--out", out], b""),
        (&["unpack", "--out", out], b"\xEF\xBB\xBF\r\n"),
        (&["day", "--from", "0", "--svg", out], b""),
    ] {
        assert_eq!(call(words, input).status.code(), Some(1), "{words:?}");
        assert_eq!(std::fs::read(out).expect("still there"), b"kept");
    }
    let day = ["day", "--from", "0", "--svg", out];
    assert_eq!(call(&day, &r1()).status.code(), Some(0));
    let picture = std::fs::read_to_string(out).expect("a picture");
    assert!(picture.starts_with("<svg"), "{picture}");
}

/// Whoever reads the answers may stop before they end.
#[test]
fn a_closed_pipe_is_no_panic() {
    let folder = Folder::new();
    let file = folder.file("thermal.txt", example("thermal.txt"));
    let mut program = Command::new(PROGRAM)
        .args(["day", &file, "--from", "0", "--hours", "8784"])
        .stdout(Stdio::piped())
        .stderr(Stdio::piped())
        .spawn()
        .expect("the command starts");
    let mut some = [0; 10];
    let mut stdout = program.stdout.take().expect("a pipe");
    stdout.read_exact(&mut some).expect("the first bytes");
    drop(stdout);
    let ended = program.wait_with_output().expect("it ends");
    assert_eq!(text(&ended.stderr), "");
    assert_eq!(ended.status.code(), Some(0));
}

/// The command, the header of the library, the crates and the changelog have one version.
#[test]
fn one_version() {
    let root = Path::new(env!("CARGO_MANIFEST_DIR")).join("../..");
    let read = |name: &str| std::fs::read_to_string(root.join(name)).expect(name);
    let version = env!("CARGO_PKG_VERSION");
    for words in ["--version", "-V"] {
        let ended = call(&[words], b"");
        assert_eq!(text(&ended.stdout), format!("bench {version}\n"));
        assert_eq!(ended.status.code(), Some(0));
    }
    let header = format!("\n#define BENCH_VERSION \"{version}\"\n");
    assert!(read("include/bench.h").contains(&header), "{header}");
    let of_crate = format!("\nversion = \"{version}\"\n");
    for name in ["bench", "command", "model"] {
        assert!(
            read(&format!("rust/{name}/Cargo.toml")).contains(&of_crate),
            "{name}"
        );
    }
    assert!(read("CHANGELOG.md").contains(&format!("\n## {version}\n")));
}
