//! The README's command: what it prints for each example, whole; its exit statuses; which line of a file it finds wrong; and
//! that it has the program proved first where a source is newer, which a stand-in for `rt` records.

use std::fs::{self, File};
use std::os::unix::fs::PermissionsExt;
use std::path::{Path, PathBuf};
use std::process::{Command, Output, Stdio};
use std::time::{Duration, SystemTime};

const ROOT: &str = concat!(env!("CARGO_MANIFEST_DIR"), "/../..");

const YES: i32 = 0;
const NO: i32 = 1;
const REFUSED: i32 = 2;
const UNREADABLE: i32 = 3;
const NO_PROGRAM: i32 = 4;

/// `./run` with these words, in the tree itself.
fn run(words: &[&str]) -> Output {
    Command::new("bash").arg("run").args(words).current_dir(ROOT).output().expect("bash runs")
}

fn text(bytes: &[u8]) -> String {
    String::from_utf8(bytes.to_vec()).expect("text")
}

/// What `./run examples/NAME.hex` prints, ending with this status.
fn printed(name: &str, status: i32) -> String {
    let output = run(&[&format!("examples/{name}.hex")]);
    assert_eq!(output.status.code(), Some(status), "{}", text(&output.stderr));
    text(&output.stdout)
}

/// The line of a yes, and the tree's words.
fn answers(name: &str, line: &str, tree: &[u32]) {
    let words: String = tree.iter().map(|word| format!("{word:08X}\n")).collect();
    assert_eq!(printed(name, YES), format!("{line}\n{words}"));
}

#[test]
fn enter() {
    answers("enter", "yes moves 1 visits 3 deepest 3 weight 2 words 7", &[0x1000_0000, 0x8000_0002, 0x1000_0000, 0x8000_0001, 0, 0, 0]);
}

#[test]
fn leave() {
    let tree = [
        0x1000_0000, 0x8000_0002, 0x1000_0000, 0x8000_0001, 0x2000_0000, 0xE000_0000, 0xB000_0000, 0x8000_0002, 0xA000_0000,
        0x8000_0003, 0, 0, 0, 0x1000_0000, 0x8000_0003, 0, 0,
    ];
    answers("leave", "yes moves 0 visits 38 deepest 7 weight 4 words 17", &tree);
}

#[test]
fn open() {
    answers("open", "yes moves 1 visits 7 deepest 3 weight 2 words 6", &[0x4000_0000, 0x8000_0003, 0x1000_0000, 0x8000_0004, 0, 0]);
}

#[test]
fn receipt() {
    answers("receipt", "yes moves 3 visits 6 deepest 3 weight 4 words 7", &[0x1000_0000, 0x8000_0001, 0, 0x1000_0000, 0x8000_0002, 0, 0]);
}

#[test]
fn seats() {
    let text = printed("seats", NO);
    assert!(text.starts_with("no moves 3 visits 2 deepest 2 weight 6 words 20\n10000000\n8000000D\n"), "{text}");
}

#[test]
fn refused() {
    assert_eq!(printed("refused", REFUSED), "refused 16 at 1\n");
}

/// A new folder for a test's files, gone at its end. It stands outside the tree: a source that no crate has is an error there.
struct Folder(PathBuf);

impl Folder {
    fn new(name: &str) -> Folder {
        let path = std::env::temp_dir().join(format!("skycorbel-{}-{name}", std::process::id()));
        fs::create_dir(&path).expect("a new folder");
        Folder(path)
    }
}

impl Drop for Folder {
    fn drop(&mut self) {
        fs::remove_dir_all(&self.0).expect("the folder goes");
    }
}

impl std::ops::Deref for Folder {
    type Target = Path;

    fn deref(&self) -> &Path {
        &self.0
    }
}

fn write(path: &Path, content: &str) {
    fs::create_dir_all(path.parent().expect("a folder around")).expect("folders");
    fs::write(path, content).expect("a file");
}

/// A file of this content is said to be wrong, and in this way.
fn is_wrong(name: &str, content: &str, what: &str) {
    let folder = Folder::new(name);
    let file = folder.join("wrong.hex");
    write(&file, content);
    let output = run(&[file.to_str().expect("text")]);
    assert_eq!(text(&output.stderr), format!("{}{what}\n", file.display()));
    assert_eq!((output.status.code(), output.stdout.len()), (Some(UNREADABLE), 0));
}

#[test]
fn no_word() {
    let tell = |word| format!(":3: '{word}' is not a word of eight hexadecimal digits");
    for word in ["xyz", "1000000", "100000000", "1000000G", "0x000000", "-0000001"] {
        is_wrong("no_word", &format!("script # the script\n00000000\n00000000 {word}\nmoves\nrule\n0\n"), &tell(word));
    }
    is_wrong("no_word", "script\n\n1000\n", &tell("1000"));
}

#[test]
fn a_word_before_the_first_heading() {
    is_wrong("before", "# none\n\n  10000000\nscript\n", ":3: '10000000' stands before the first heading");
}

#[test]
fn an_unknown_heading() {
    is_wrong("unknown", "scripts\n", ":1: 'scripts' is no heading (script, moves, rule, patience) and no word");
    is_wrong("unknown", "script\n00000000\nMoves\n", ":3: 'Moves' is no heading (script, moves, rule, patience) and no word");
}

#[test]
fn a_heading_with_a_word_beside_it() {
    is_wrong("beside", "script 00000000\n", ":1: the heading 'script' does not stand alone");
}

#[test]
fn a_heading_that_is_missing() {
    let lists =
        [("script", "script\n00000000\n"), ("moves", "moves\n"), ("rule", "rule\n00000000\n"), ("patience", "patience\n00000009\n")];
    for (missing, _) in lists {
        let others: String = lists.iter().filter(|(name, _)| *name != missing).map(|(_, lines)| *lines).collect();
        is_wrong("missing", &others, &format!(": the heading '{missing}' is missing"));
    }
}

#[test]
fn a_heading_twice() {
    is_wrong("twice", "script\n00000000\nmoves\n\nscript\n00000000\n", ":5: the heading 'script' again");
}

#[test]
fn patience_of_another_number_of_words_than_one() {
    let rest = "script\n00000000\nmoves\nrule\n00000000\n";
    let second = "'00000002' is a second word of patience, which has one";
    is_wrong("patience", &format!("{rest}patience # none\n\n"), ":6: patience has no word");
    is_wrong("patience", &format!("{rest}patience\n00000001\n00000002\n"), &format!(":8: {second}"));
    is_wrong("patience", &format!("patience\n00000001 00000002\n{rest}"), &format!(":2: {second}"));
}

#[test]
fn no_file_and_wrong_usage() {
    for (words, what) in [
        (&["examples/nothing.hex"][..], "run: examples/nothing.hex: no such file, or none that can be read\n"),
        (&["examples"], "run: examples: no such file, or none that can be read\n"),
        (&[], "usage: run FILE.hex\n"),
        (&["examples/enter.hex", "examples/open.hex"], "usage: run FILE.hex\n"),
    ] {
        let output = run(words);
        assert_eq!(text(&output.stderr), what);
        assert_eq!((output.status.code(), output.stdout.len()), (Some(UNREADABLE), 0));
    }
}

/// Headings in another order, small letters, lines that end as on other systems, and no end of the last one.
#[test]
fn other_layouts() {
    let folder = Folder::new("layouts");
    let file = folder.join("name=value .hex");
    let lists = "patience\r\n00000009# nine\r\nrule\r\n40000002\r\n\t40000001 30000000\r\nmoves\n10000102\n";
    let script = "script\n10000000 80000001 20000000 a0000000 80000002 00000000 00000000\n10000000 80000002 00000000 00000000";
    write(&file, &[lists, script].concat());
    let output = run(&[file.to_str().expect("text")]);
    assert_eq!((output.status.code(), text(&output.stderr).as_str()), (Some(YES), ""));
    assert_eq!(text(&output.stdout), printed("enter", YES));
}

/// The outline of a tree: `run`, three crates that the program rests on and one that it does not, and a stand-in for `rt`, which
/// counts its calls, prints the file `said`, and ends with a status: 1 in the crate of that name, else 0. In the program's crate
/// it makes the program of the file `made`, if there is one.
struct Outline(Folder);

const SOURCES: &[&str] =
    &["crates.txt", "crates/low/src/lib.rt", "crates/low/must-fail/other.edit", "crates/other/proofs/Laws.antt"];
const FOLDERS: &[&str] = &["high", "skycorbel"];
const SAID: &str = "fn f: proved\nlogic=proved functions=1\n";
const PROGRESS: &str = "proved 1 of 3: low\nproved 2 of 3: high\nproved 3 of 3: skycorbel\n";
const ALL_PROVED: [&str; 3] = ["low: lib", "high: lib", "skycorbel: run"];
const PROGRAM: &str = "crates/skycorbel/out/skycorbel";
const SAYS_YES: &str = "#!/bin/sh\ncat >/dev/null\necho yes moves 0\n";

impl Outline {
    /// All of it is two hours old, and there is no program yet.
    fn new(name: &str, said: &str, refused: &str) -> Outline {
        let outline = Outline(Folder::new(name));
        for source in SOURCES {
            write(&outline.0.join(source), "");
        }
        for name in FOLDERS {
            write(&outline.0.join("crates").join(name).join("src/lib.rt"), "");
        }
        write(&outline.0.join("crates.txt"), "# in any order\nother staticlib: low\nskycorbel: high low\nhigh: low\nlow:\n");
        write(&outline.0.join("call.hex"), "script\n00000000\nmoves\nrule\n00000000\npatience\n00000001\n");
        write(&outline.0.join("said"), said);
        outline.program("made", SAYS_YES);
        let say = "crate=$(basename \"$PWD\")\nmkdir -p out\ncd ../..\necho \"$crate: $*\" >>calls\nsleep 0.1\ncat said";
        let make = "if [ $crate = skycorbel ] && [ -f made ]; then cp made crates/skycorbel/out/skycorbel; fi";
        outline.program("path/rt", &format!("#!/bin/sh\n{say}\n[ $crate != '{refused}' ] || exit 1\n{make}\n"));
        fs::copy(Path::new(ROOT).join("run"), outline.0.join("run")).expect("a copy");
        let made = Command::new("find").args([".", "-exec", "touch", "-d", "2 hours ago", "{}", "+"]).current_dir(&*outline.0).status();
        assert!(made.expect("find runs").success());
        outline
    }

    /// A file that can be run.
    fn program(&self, path: &str, content: &str) {
        write(&self.0.join(path), content);
        fs::set_permissions(self.0.join(path), fs::Permissions::from_mode(0o755)).expect("permissions");
    }

    /// Sets when a file was last changed.
    fn changed(&self, path: &str, minutes_ago: u64) {
        let time = SystemTime::now() - Duration::from_secs(60 * minutes_ago);
        File::open(self.0.join(path)).and_then(|file| file.set_modified(time)).expect("a time");
    }

    fn command(&self) -> Command {
        let path = format!("{}:{}", self.0.join("path").display(), std::env::var("PATH").expect("a path"));
        let mut command = Command::new("bash");
        command.args(["run", "call.hex"]).current_dir(&*self.0).env("PATH", path);
        command
    }

    /// `./run call.hex`: its status, standard output and standard error.
    fn run(&self) -> (i32, String, String) {
        let output = self.command().output().expect("bash runs");
        (output.status.code().expect("a status"), text(&output.stdout), text(&output.stderr))
    }

    /// The crates in which `rt` was called, each with what it was called with, call by call.
    fn calls(&self) -> Vec<String> {
        fs::read_to_string(self.0.join("calls")).unwrap_or_default().lines().map(str::to_string).collect()
    }

    /// How often all was proved.
    fn proofs(&self) -> usize {
        let calls = self.calls();
        assert_eq!(calls, ALL_PROVED.repeat(calls.len() / ALL_PROVED.len()));
        calls.len() / ALL_PROVED.len()
    }
}

fn said(status: i32, out: &str, err: &str) -> (i32, String, String) {
    (status, out.to_string(), err.to_string())
}

#[test]
fn no_program_is_proved_first() {
    let outline = Outline::new("no_program", SAID, "");
    assert_eq!(outline.run(), said(YES, "yes moves 0\n", PROGRESS));
    assert_eq!(outline.run(), said(YES, "yes moves 0\n", ""));
    assert_eq!(outline.calls(), ALL_PROVED);
}

#[test]
fn a_newer_source_is_proved_first() {
    let outline = Outline::new("newer", SAID, "");
    outline.run();
    for (before, source) in SOURCES.iter().enumerate() {
        outline.changed(PROGRAM, 60);
        outline.run();
        assert_eq!(outline.proofs(), before + 1, "no source is newer");
        outline.changed(source, 30);
        assert_eq!(outline.run().2, PROGRESS, "{source}");
        assert_eq!(outline.proofs(), before + 2, "{source}");
        outline.changed(source, 120);
    }
}

#[test]
fn a_source_that_is_gone_is_noticed() {
    let outline = Outline::new("gone", SAID, "");
    outline.run();
    outline.changed(PROGRAM, 60);
    fs::remove_file(outline.0.join("crates/low/src/lib.rt")).expect("a file");
    assert_eq!(outline.run().2, PROGRESS);
}

/// rt leaves the program alone where the newer file is none that the program is made of; it is not asked again then.
#[test]
fn a_program_that_stays_is_proved_once() {
    let outline = Outline::new("stays", SAID, "");
    outline.run();
    fs::remove_file(outline.0.join("made")).expect("a file");
    outline.changed(PROGRAM, 150);
    assert_eq!(outline.run().2, PROGRESS);
    assert_eq!(outline.run().2, "");
}

#[test]
fn two_at_a_time_prove_once() {
    let outline = Outline::new("two", SAID, "");
    let mut other = outline.command().stdout(Stdio::null()).stderr(Stdio::null()).spawn().expect("bash runs");
    assert_eq!(outline.run().0, YES);
    assert!(other.wait().expect("it ends").success());
    assert_eq!(outline.proofs(), 1);
}

/// What rt says is shown, and the program that it left is not run, now or later.
#[test]
fn a_failure_is_shown() {
    let words = "error: a need is not met\nlogic=not-proved\n";
    let outline = Outline::new("failure", words, "high");
    let expected = format!("proved 1 of 3: low\n{words}run: the program is not proved and built\n");
    assert_eq!(outline.run(), said(NO_PROGRAM, "", &expected));
    assert_eq!(outline.run(), said(NO_PROGRAM, "", &expected));
    assert_eq!(outline.calls(), [ALL_PROVED[0], ALL_PROVED[1]].repeat(2));
}

#[test]
fn a_program_without_an_answer() {
    let outline = Outline::new("mute", SAID, "");
    outline.program("made", "#!/bin/sh\nexit 1\n");
    assert_eq!(outline.run(), said(NO_PROGRAM, "", &format!("{PROGRESS}run: the program gave no answer\n")));
}

#[test]
fn a_wrong_file_is_told_before_anything_is_proved() {
    let outline = Outline::new("wrong", SAID, "");
    write(&outline.0.join("call.hex"), "");
    assert_eq!(outline.run(), said(UNREADABLE, "", "call.hex: the heading 'script' is missing\n"));
    assert!(outline.calls().is_empty());
}
