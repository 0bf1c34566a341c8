//! Files that a call writes: never one that it reads, and the old one or the whole new one is there.

use crate::example::example;
use crate::process::{call, text, Folder, PROGRAM};
use std::ffi::OsStr;
use std::fs;
use std::os::unix::ffi::OsStrExt;
use std::os::unix::fs::{symlink, PermissionsExt};
use std::path::Path;
use std::process::{Command, Output};

/// What a line of shell comes to in a folder; `bench` stands for the command.
fn shell(folder: &Folder, line: &str) -> Output {
    let line = line.replace("bench ", &format!("{PROGRAM} "));
    let mut shell = Command::new("sh");
    shell.args(["-c", &line]).current_dir(&folder.0);
    shell.output().expect("sh runs")
}

/// A folder with a station as text, a link to it, another name of it and a link to the folder.
fn stations() -> Folder {
    let folder = Folder::new();
    let file = folder.file("s.txt", example("thermal.txt"));
    symlink("s.txt", folder.path("link")).expect("a link");
    fs::hard_link(&file, folder.path("twin")).expect("another name");
    symlink(".", folder.path("here")).expect("a link");
    folder
}

#[test]
fn no_input_is_written_over() {
    let folder = stations();
    for out in ["s.txt", "./s.txt", "here/./here/s.txt", "link", "twin"] {
        for line in [
            format!("bench pack s.txt --out {out}"),
            format!("bench unpack link --out {out}"),
            format!("bench pack --out {out} < s.txt"),
            format!("bench day s.txt --from 0 --svg {out}"),
            format!("bench day - --from 0 --svg {out} < twin"),
            format!("bench day s.txt --from 0 --svg new --svg-day {out}"),
            format!("bench week s.txt --svg {out}"),
        ] {
            let ended = shell(&folder, &line);
            assert!(!Path::new(&folder.path("new")).exists(), "{line}");
            let says = text(&ended.stderr);
            assert_eq!(ended.status.code(), Some(2), "{line}: {says}");
            assert!(says.contains("is the input"), "{line}: {says}");
            assert!(!says.contains("--help"), "{line}: {says}");
            assert_eq!(text(&ended.stdout), "", "{line}");
            let kept = fs::read_to_string(folder.path("s.txt")).expect("the station");
            assert_eq!(kept, example("thermal.txt"), "{line}");
        }
    }
}

/// The shell has emptied the file before the call begins: that must not look like a dossier.
#[test]
fn standard_output_is_no_input() {
    for line in [
        "bench pack s.txt > s.txt",
        "bench unpack twin >> s.txt",
        "echo station=link hour=0 condition=narrow offer=1@1 | bench offers >> s.txt",
        "echo station=no station=twin hour=0 condition=narrow offer=1@1 | bench offers >> s.txt",
    ] {
        let folder = stations();
        let ended = shell(&folder, line);
        assert_eq!(ended.status.code(), Some(2), "{line}");
        assert!(text(&ended.stderr).contains("is the input"), "{line}");
        let left = fs::read_to_string(folder.path("s.txt")).expect("the station");
        let emptied = line.contains(" > ");
        assert!(emptied || left == example("thermal.txt"), "{line}");
    }
}

/// What goes to standard output would be gone with the file that is replaced.
#[test]
fn standard_output_is_no_other_output() {
    for line in [
        "bench day s.txt --from 0 --svg old >> old",
        "bench day s.txt --from 0 --svg-day here/old >> old",
        "bench pack s.txt --out /dev/stdout >> old",
    ] {
        let folder = stations();
        folder.file("old", "kept");
        let ended = shell(&folder, line);
        let says = text(&ended.stderr);
        assert_eq!(ended.status.code(), Some(2), "{line}: {says}");
        assert!(says.contains("is standard output"), "{line}: {says}");
        assert_eq!(fs::read(folder.path("old")).expect("old"), b"kept");
    }
}

/// One file under two names doesn't hold two pictures.
#[test]
fn two_pictures_have_two_files() {
    let folder = stations();
    symlink("later", folder.path("to-later")).expect("a link");
    let names = folder.names();
    for [hour, day] in [
        ["new", "new"],
        ["new", "./new"],
        ["here/new", "new"],
        ["to-later", "later"],
    ] {
        let line = format!("bench day s.txt --from 0 --svg {hour} --svg-day {day}");
        let ended = shell(&folder, &line);
        assert_eq!(ended.status.code(), Some(2), "{line}");
        assert!(text(&ended.stderr).contains("two pictures"), "{line}");
        assert_eq!(folder.names(), names, "{line}");
    }
    let line = "bench day s.txt --from 0 --svg new --svg-day here/other";
    assert_eq!(shell(&folder, line).status.code(), Some(0));
    assert_eq!(folder.names().len(), names.len() + 2);
}

/// A file may not grow over 512 bytes, as if the disk was full.
#[test]
fn a_full_disk_leaves_the_old_file() {
    let folder = stations();
    folder.file("long.txt", "LC issue=1 cost=0.00\n".repeat(5_000));
    folder.file("old", "kept");
    let names = folder.names();
    for (call, out) in [
        ("pack long.txt --out", "old"),
        ("pack long.txt --out", "new"),
        ("unpack long.txt --out", "old"),
        ("day s.txt --from 0 --svg", "old"),
    ] {
        let line = format!("trap '' XFSZ; ulimit -f 1; bench {call} {out}");
        let ended = shell(&folder, &line);
        let says = text(&ended.stderr);
        assert_eq!(ended.status.code(), Some(2), "{call}: {says}");
        assert!(
            says.contains(&format!("{out} can't be written: ")),
            "{says}"
        );
        assert!(!says.contains("--help"), "{says}");
        assert_eq!(folder.names(), names, "{call}");
        assert_eq!(fs::read(folder.path("old")).expect("still there"), b"kept");
    }
}

#[test]
fn the_new_file_stands_in_for_the_old_one() {
    let folder = stations();
    let old = folder.file("old", "an older dossier");
    symlink("old", folder.path("to-old")).expect("a link");
    symlink("later", folder.path("to-later")).expect("a link");
    fs::set_permissions(&old, fs::Permissions::from_mode(0o640)).expect("permissions");
    for out in ["to-old", "to-later", "new"] {
        let ended = shell(&folder, &format!("umask 027; bench pack s.txt --out {out}"));
        assert_eq!(ended.status.code(), Some(0), "{}", text(&ended.stderr));
    }
    let packed = call(&["pack", &folder.path("s.txt")], b"").stdout;
    for name in ["old", "later", "new"] {
        let path = folder.path(name);
        let found = fs::symlink_metadata(&path).expect(name);
        assert!(found.is_file(), "{name}");
        assert_eq!(found.permissions().mode() & 0o777, 0o640, "{name}");
        assert_eq!(fs::read(&path).expect(name), packed, "{name}");
    }
    assert!(Path::new(&folder.path("to-old")).is_symlink());
    let names = folder.names();
    assert!(names.iter().all(|name| !name.contains("tmp")), "{names:?}");
}

/// What is no file can't be replaced by one.
#[test]
fn devices_and_folders() {
    let folder = stations();
    for (out, status) in [
        ("/dev/null", 0),
        ("/dev/stdout", 0),
        ("/dev/full", 2),
        (".", 2),
        ("no/where", 2),
    ] {
        let ended = shell(&folder, &format!("bench pack s.txt --out {out}"));
        assert_eq!(ended.status.code(), Some(status), "{out}");
        assert_eq!(
            text(&ended.stderr).contains("can't be written"),
            status == 2,
            "{out}"
        );
    }
    let packed = call(&["pack", &folder.path("s.txt")], b"").stdout;
    let ended = shell(&folder, "bench pack s.txt --out /dev/stdout | cat");
    assert_eq!(ended.stdout, packed);
}

#[test]
fn names_that_are_no_output() {
    let folder = stations();
    for call in [
        "pack s.txt --out -",
        "unpack s.txt --out=-",
        "day s.txt --from 0 --svg -",
        "day s.txt --from 0 --svg-day -",
        "day s.txt --from 0 --svg --json",
        "pack s.txt --out ''",
    ] {
        let names = folder.names();
        let ended = shell(&folder, &format!("bench {call}"));
        assert_eq!(ended.status.code(), Some(2), "{call}");
        assert_eq!(folder.names(), names, "{call}");
    }
    let ended = shell(&folder, "bench day s.txt --from 0 --at 3");
    assert_eq!(ended.status.code(), Some(2));
    assert!(text(&ended.stderr).contains("--at is for --svg"));
}

/// The JSON member `file` of a call on a file of this name, beside what is said in words.
fn called(folder: &Folder, name: &[u8]) -> (String, String) {
    let name = OsStr::from_bytes(name);
    fs::write(folder.0.join(name), "FU issue=1").expect("a file");
    let mut program = Command::new(PROGRAM);
    program
        .current_dir(&folder.0)
        .args(["check", "--json", "--"]);
    let ended = program.arg(name).output().expect("the command runs");
    let (out, err) = (text(&ended.stdout), text(&ended.stderr));
    let member = out.split(",\"wrong").next().expect("a member");
    (
        member.to_string(),
        err.split(": ").next().expect("a name").to_string(),
    )
}

/// A name is told as it is, as far as it is text, and no two names alike.
#[test]
fn any_name_is_told() {
    let folder = Folder::new();
    for (name, json, words) in [
        (&b"plain.txt"[..], r#"{"file":"plain.txt""#, "plain.txt"),
        (b"a\nb\x1b", r#"{"file":"a\u000ab\u001b""#, r"a\nb\u{1b}"),
        (
            b"a\xffb",
            r#"{"file":"a\\xffb","file-bytes":"61ff62""#,
            r"a\xffb",
        ),
        (
            b"a\xfeb",
            r#"{"file":"a\\xfeb","file-bytes":"61fe62""#,
            r"a\xfeb",
        ),
        (
            b"standard input",
            r#"{"file":"standard input""#,
            "./standard input",
        ),
    ] {
        let found = called(&folder, name);
        assert_eq!(found, (json.to_string(), words.to_string()));
    }
    let ended = call(&["check", ""], b"");
    assert!(text(&ended.stderr).starts_with("'': can't be read: "));
    let ended = call(&["check", "--json"], b"FU issue=1");
    assert!(text(&ended.stdout).starts_with(r#"{"file":"-","#));
    assert!(text(&ended.stderr).starts_with("standard input: "));
}

/// Of several files in one answer too.
#[test]
fn names_of_several_files_are_told() {
    let folder = stations();
    let name = OsStr::from_bytes(b"\xff");
    fs::write(folder.0.join(name), example("newer.price")).expect("a file");
    let mut program = Command::new(PROGRAM);
    program.current_dir(&folder.0).args(["check", "s.txt"]);
    let ended = program.arg(name).args(["--together", "--json"]).output();
    let shown = text(&ended.expect("the command runs").stdout);
    let named = r#","files":["s.txt","\\xff"],"files-bytes":[null,"ff"],"accepted":"#;
    assert!(shown.contains(named), "{shown}");
}

#[test]
fn outputs_may_have_any_name() {
    let folder = stations();
    let path = |name: &[u8]| folder.0.join(OsStr::from_bytes(name));
    for (words, name) in [
        (&[&b"--out"[..], b"\xff1"][..], b"\xff1"),
        (&[b"--out=\xff2"], b"\xff2"),
    ] {
        let mut program = Command::new(PROGRAM);
        program.current_dir(&folder.0).args(["pack", "s.txt"]);
        let ended = program
            .args(words.iter().map(|w| OsStr::from_bytes(w)))
            .output();
        assert_eq!(ended.expect("the command runs").status.code(), Some(0));
        assert!(path(name).is_file(), "{name:?}");
    }
}
