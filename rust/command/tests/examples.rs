//! The calls that documents show: each is run in the folder examples/, and must print what stands
//! there. With BENCH_WRITE=1 the documents are written anew instead.

use std::fs;
use std::path::{Path, PathBuf};
use std::process::Command;

fn root() -> PathBuf {
    Path::new(env!("CARGO_MANIFEST_DIR")).join("../..")
}

/// A copy of the folder examples/ for the calls, so that none of them changes what is shown.
struct Folder(PathBuf);

impl Folder {
    fn new(name: &str) -> Folder {
        let name = format!("bench-examples-{}-{name}", std::process::id());
        let path = std::env::temp_dir().join(name);
        fs::create_dir_all(&path).expect("a temporary folder");
        for entry in fs::read_dir(root().join("examples")).expect("examples") {
            let from = entry.expect("an entry").path();
            let name = from.file_name().expect("a name");
            fs::copy(&from, path.join(name)).expect("a copy");
        }
        Folder(path)
    }

    /// What a call prints, its errors among it, and its status if that isn't 0.
    fn printed(&self, call: &str) -> String {
        let program = Path::new(env!("CARGO_BIN_EXE_bench"));
        let folder = program.parent().expect("a folder").display();
        let path = format!("{folder}:{}", std::env::var("PATH").unwrap_or_default());
        let ended = Command::new("sh")
            .args(["-c", &format!("{call} 2>&1")])
            .env("PATH", path)
            .current_dir(&self.0)
            .output()
            .expect("sh runs");
        let mut shown = String::from_utf8(ended.stdout).expect("text");
        if let Some(status @ 1..) = ended.status.code() {
            shown += &format!("[status {status}]\n");
        }
        shown
    }
}

impl Drop for Folder {
    fn drop(&mut self) {
        let _ = fs::remove_dir_all(&self.0);
    }
}

/// The document with what its calls print now. A call stands behind `    $ `, in a block of code that a
/// line without four spaces ends.
fn renewed(document: &str, folder: &Folder) -> String {
    let (mut lines, mut answer) = (Vec::new(), false);
    for line in document.lines() {
        let code = line.strip_prefix("    ");
        if let Some(call) = code.and_then(|code| code.strip_prefix("$ ")) {
            answer = true;
            lines.push(line.to_string());
            lines.extend(folder.printed(call).lines().map(|l| format!("    {l}")));
        } else if code.is_none() || !answer {
            answer = false;
            lines.push(line.to_string());
        }
    }
    lines.join("\n") + "\n"
}

/// What stands in the repository must be what was made now; with BENCH_WRITE=1 it is made so.
fn stands(name: &str, made: String) {
    let path = root().join(name);
    if std::env::var("BENCH_WRITE").is_ok() {
        return fs::write(&path, made).expect(name);
    }
    let stands = fs::read_to_string(&path).expect(name);
    for (line, made) in stands.lines().zip(made.lines()) {
        assert_eq!(line, made, "{name}");
    }
    assert_eq!(stands, made, "{name}");
}

#[test]
fn documents_show_what_is_printed() {
    let folder = Folder::new("documents");
    for name in ["README.md", "examples/README.md", "docs/COMMAND.md"] {
        let document = fs::read_to_string(root().join(name)).expect(name);
        assert!(document.contains("    $ bench "), "{name} shows no call");
        stands(name, renewed(&document, &folder));
    }
    for name in ["thermal.svg", "day.svg", "week.svg", "contract.svg"] {
        let picture = fs::read_to_string(folder.0.join(name)).expect("a picture");
        stands(&format!("examples/{name}"), picture);
    }
}

/// The page of records is the one that the table of marks and that of technologies make.
#[test]
fn the_page_of_records_is_that_of_the_tables() {
    stands("docs/RECORDS.md", command::new::page());
}

/// Every station of the folder is accepted, and each technology has one.
#[test]
fn every_example_is_accepted() {
    let said = Folder::new("stations").printed("bench check *.txt");
    for technology in ["thermal", "nuclear", "storage", "hydro"] {
        let accepted = format!("{technology}.txt: accepted: {technology}, ");
        assert!(said.contains(&accepted), "{said}");
    }
    assert!(!said.contains("refused"), "{said}");
}

/// Every member of the JSON that the documents show stands in the table of docs/COMMAND.md.
#[test]
fn every_member_is_documented() {
    let read = |name: &str| fs::read_to_string(root().join(name)).expect(name);
    let command = read("docs/COMMAND.md");
    let shown = format!("{command}{}", read("examples/README.md"));
    let mut members = 0;
    for object in shown.lines().filter(|line| line.starts_with("    {")) {
        let texts: Vec<&str> = object.split('"').collect();
        for pair in texts.windows(2).filter(|pair| pair[1].starts_with(':')) {
            let member = pair[0];
            assert!(command.contains(&format!("`{member}`")), "{member}");
            members += 1;
        }
    }
    assert!(members > 50, "{members} members");
}
