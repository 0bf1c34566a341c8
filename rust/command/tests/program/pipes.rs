//! A reader that has gone changes no status: a refusal, a failing offer and a file that can't be
//! read never end as if all was done.

use crate::example::example;
use crate::process::{text, Folder, PROGRAM};
use std::process::{Command, Stdio};

/// The status of a call whose standard output, or standard error, nobody reads.
fn unread(words: &[&str], out: bool) -> Option<i32> {
    let (reader, writer) = std::io::pipe().expect("a pipe");
    drop(reader);
    let (stdout, stderr) = match out {
        true => (Stdio::from(writer), Stdio::null()),
        false => (Stdio::null(), Stdio::from(writer)),
    };
    let mut program = Command::new(PROGRAM);
    program.args(words).stdin(Stdio::null());
    let ended = program.stdout(stdout).stderr(stderr).status();
    ended.expect("the command runs").code()
}

const OFFER: [&str; 3] = ["--hour=0", "--condition=narrow", "--offer=100.0@60.46"];
const FAIR: [&str; 3] = ["--hour=0", "--condition=narrow", "--offer=100.0@60.45"];

fn with<'a>(first: &[&'a str], more: &[&'a str]) -> Vec<&'a str> {
    [first, more].concat()
}

#[test]
fn a_single_answer_keeps_its_status() {
    let folder = Folder::new();
    let good = folder.file("good.txt", example("thermal.txt"));
    let none = folder.file("nofuel.txt", example("thermal.txt").replace("FU", "# FU"));
    let wrong = folder.file("wrong.txt", "FU issue=1\n");
    for (words, status) in [
        (vec!["check", &good], 0),
        (vec!["check", &none], 1),
        (vec!["check", &wrong, "--json"], 1),
        (vec!["pack", &wrong], 1),
        (vec!["check", "no-such-file"], 2),
        (vec!["pack", "no-such-file"], 2),
        (with(&["test", &good], &OFFER), 3),
        (with(&["test", &good, "--json"], &OFFER), 3),
        (with(&["test", &good], &FAIR), 0),
        (vec!["levels", &good], 2),
        (vec!["what"], 2),
    ] {
        for out in [true, false] {
            assert_eq!(unread(&words, out), Some(status), "{words:?} {out}");
        }
    }
}

/// The file that weighs most comes last, long after the reader has gone.
#[test]
fn many_answers_keep_the_weightiest_status() {
    let folder = Folder::new();
    let good = folder.file("good.txt", example("thermal.txt"));
    let none = folder.file("nofuel.txt", example("thermal.txt").replace("FU", "# FU"));
    let dear = folder.file(
        "dear.txt",
        example("thermal.txt").replace("percent=50", "percent=49"),
    );
    let many = vec![&good[..]; 2_000];
    for (last, status) in [
        (&good, 0),
        (&none, 1),
        (&"no-such-file".to_string(), 2),
        (&dear, 3),
    ] {
        for json in [&[][..], &["--json"]] {
            let words = [&["test"], &many[..], &[last], &FAIR, json].concat();
            for out in [true, false] {
                assert_eq!(unread(&words, out), Some(status), "{last} {json:?} {out}");
            }
        }
    }
}

/// As it is done in a shell, over failing offers.
#[test]
fn the_first_line_is_enough_for_head() {
    let folder = Folder::new();
    for number in 0..400 {
        folder.file(&format!("m{number}.txt"), example("thermal.txt"));
    }
    let call = format!("{PROGRAM} test m*.txt m*.txt m*.txt {}", OFFER.join(" "));
    let script = format!("{{ {call}; echo $? > status; }} | head -1");
    let ended = Command::new("sh")
        .args(["-c", &script])
        .current_dir(&folder.0)
        .output();
    let shown = text(&ended.expect("sh runs").stdout);
    assert!(shown.starts_with("m0.txt: fails under narrow"), "{shown}");
    assert_eq!(
        std::fs::read_to_string(folder.path("status")).expect("a status"),
        "3\n"
    );
}
