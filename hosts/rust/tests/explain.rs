//! The example `explain`: what it prints for each file of examples/, whole; its exit statuses; which line of a file it finds
//! wrong, in the words of `./run`; and that no file makes it panic.

use skycorbel::Move;
use std::fs;
use std::path::{Path, PathBuf};
use std::process::{Command, Output};

const ROOT: &str = concat!(env!("CARGO_MANIFEST_DIR"), "/../..");

const YES: i32 = 0;
const NO: i32 = 1;
const REFUSED: i32 = 2;
const UNREADABLE: i32 = 3;

/// Cargo builds the examples beside the tests, where all of them are run: `cargo test`, or with `--example explain`.
fn explain(words: &[&str]) -> Output {
    let test = std::env::current_exe().expect("a path");
    let built = test.ancestors().nth(2).expect("a folder around").join("examples/explain");
    Command::new(built).args(words).current_dir(ROOT).output().expect("the example is built and runs")
}

fn text(bytes: &[u8]) -> String {
    String::from_utf8(bytes.to_vec()).expect("text")
}

/// What is printed about a file, ending with this status.
fn prints(file: &str, status: i32, expected: &str) {
    let output = explain(&[file]);
    assert_eq!(text(&output.stderr), "");
    assert_eq!((text(&output.stdout).as_str(), output.status.code()), (expected, Some(status)));
}

#[test]
fn enter() {
    let expected = "\
yes moves 1 visits 3 deepest 3 weight 2 words 7

the tree that stands:
part 2: ambient 2
    part 0: ambient 1
";
    prints("examples/enter.hex", YES, expected);
}

#[test]
fn leave() {
    let expected = "\
yes moves 0 visits 38 deepest 7 weight 4 words 17

the tree that stands:
part 0: ambient 2
    part 1: ambient 1
        part 2: action EXIT 2, IN 3
part 3: ambient 3

an itinerary of 2 moves:
ambient 1 (part 1) leaves ambient 2 (part 0)
ambient 1 (part 1) enters ambient 3 (part 3)
";
    prints("examples/leave.hex", YES, expected);
}

#[test]
fn open() {
    let expected = "\
yes moves 1 visits 7 deepest 3 weight 2 words 6

the tree that stands:
part 1: output of 3
part 3: ambient 4
";
    prints("examples/open.hex", YES, expected);
}

#[test]
fn receipt() {
    let expected = "\
yes moves 3 visits 6 deepest 3 weight 4 words 7

the tree that stands:
part 2: ambient 1
part 4: ambient 2
";
    prints("examples/receipt.hex", YES, expected);
}

#[test]
fn seats() {
    let expected = "\
no moves 3 visits 2 deepest 2 weight 6 words 20

the tree that stands:
part 4: ambient 13
    part 5: action IN 2
part 8: ambient 5
    part 6: ambient 2
        part 0: ambient 11
        part 2: ambient 12
";
    prints("examples/seats.hex", NO, expected);
}

#[test]
fn refused() {
    let expected = "\
refused 16 at 1
question 16: Can the plain machine make it now?
word 1 of the list of moves is 10000102
";
    prints("examples/refused.hex", REFUSED, expected);
}

/// A new folder for a test's files, gone at its end.
struct Folder(PathBuf);

impl Folder {
    fn new(name: &str) -> Folder {
        let path = std::env::temp_dir().join(format!("skycorbel-explain-{}-{name}", std::process::id()));
        fs::create_dir(&path).expect("a new folder");
        Folder(path)
    }

    /// The path of a file of this content.
    fn file(&self, content: impl AsRef<[u8]>) -> String {
        let path = self.0.join("call.hex");
        fs::write(&path, content).expect("a file");
        path.to_str().expect("text").to_string()
    }
}

impl Drop for Folder {
    fn drop(&mut self) {
        fs::remove_dir_all(&self.0).expect("the folder goes");
    }
}

/// What is printed about a file of these words.
fn asks(name: &str, script: &str, moves: &str, rule: &str, status: i32, expected: &str) {
    let folder = Folder::new(name);
    let content = format!("script\n{script}\nmoves\n{moves}\nrule\n{rule}\npatience\n00001000\n");
    prints(&folder.file(content), status, expected);
}

/// Every kind of part and of message, and an action that is empty under a receipt.
#[test]
fn every_kind_of_part() {
    let script = "
        10000000 E0000000 D0000000 80000001 00000000          # an ambient without a name
        20000000 E0000000 A0000000 80000002 C0000000 B0000000 80000003
          30000000 40000000 9000000C 10000000 9000000C 00000000 20000000 D0000000 00000000 00000000
        00000000
        40000000 E0000000 A0000000 80000002 D0000000
        00000000";
    let expected = "\
yes moves 0 visits 1 deepest 1 weight 7 words 29

the tree that stands:
part 0: ambient (EMPTY, 1)
part 1: action IN 2, OPEN EXIT 3
    part 2: receipt
        part 3: output of the variable of part 2
        part 4: ambient the variable of part 2
        part 5: action EMPTY
part 6: output of (IN 2, EMPTY)
";
    asks("kinds", script, "", "00000000", YES, expected);
}

/// 002's example: p leaves a and enters b, is opened there, and its message is received.
#[test]
fn every_kind_of_move() {
    let script = "
        10000000 80000001 10000000 80000002 20000000 E0000000 B0000000 80000001 A0000000 80000003
        40000000 80000004 00000000 00000000 00000000
        10000000 80000003 20000000 C0000000 80000002 30000000 10000000 90000014 00000000 00000000 00000000 00000000
        00000000";
    let rule = "70000000 80000000 40000004 30000000";
    let tree = "
the tree that stands:
part 0: ambient 1
    part 1: ambient 2
        part 2: action EXIT 1, IN 3
            part 3: output of 4
part 4: ambient 3
    part 5: action OPEN 2
        part 6: receipt
            part 7: ambient the variable of part 6
";
    let moves = "
an itinerary of 4 moves:
ambient 2 (part 1) leaves ambient 1 (part 0)
ambient 2 (part 1) enters ambient 3 (part 4)
part 5 opens ambient 2 (part 1)
receipt (part 6) takes the message of part 3
";
    let line = "yes moves 0 visits 42 deepest 9 weight 8 words 28";
    asks("moves", script, "", rule, YES, &format!("{line}\n{tree}{moves}"));
    // After three of the moves one is left.
    let tree = "
the tree that stands:
part 0: ambient 1
part 4: ambient 3
    part 3: output of 4
    part 6: receipt
        part 7: ambient the variable of part 6
";
    let moves = "
an itinerary of one move:
receipt (part 6) takes the message of part 3
";
    let line = "yes moves 3 visits 15 deepest 6 weight 5 words 14";
    asks("moves", script, "10000200 10000204 10000501", rule, YES, &format!("{line}\n{tree}{moves}"));
}

#[test]
fn no_move_and_no_part() {
    let expected = "\
yes moves 0 visits 2 deepest 2 weight 0 words 1

the tree that stands:
no part

no move is needed: the tree that stands meets the rule inside SOMETIME
";
    asks("nothing", "00000000", "", "70000000 30000000", YES, expected);
}

/// What stands at the place of a refusal, in the script, in the rule and behind their ends.
#[test]
fn places() {
    let fits = "question 2: Does this word's kind and operand fit (VAR: any operand)?";
    asks("places", "40000000 F0000000", "", "", REFUSED, &format!("refused 2 at 1\n{fits}\nword 1 of the script is F0000000\n"));
    let ends = "question 5: Does the body end at the last word, no sooner or later?";
    asks("places", "40000000", "", "", REFUSED, &format!("refused 5 at 1\n{ends}\nthe script ends before word 1\n"));
    let ends = "question 11: Does the rule end at the last word?";
    asks("places", "00000000", "", "10000000", REFUSED, &format!("refused 11 at 1\n{ends}\nthe rule ends before word 1\n"));
    asks("places", "", "", "", REFUSED, "refused 1 at 0\nquestion 1: Has the script 1 to 1,024 words?\n");
    let is_move = "question 15: Is it a move word, both numbers below n?";
    let word = "word 0 of the list of moves is 20000000";
    asks("places", "00000000", "20000000", "00000000", REFUSED, &format!("refused 15 at 0\n{is_move}\n{word}\n"));
}

/// Messages that double 28 times, received and let go: no tree here is written out in full.
#[test]
fn messages_that_double() {
    let mut words = vec![0x4000_0000, 0xA000_0000, 0x8000_0001];
    let mut moves = String::new();
    for k in 0..28 {
        let variable = 0x9000_0000 | words.len() as u32;
        words.extend([0x3000_0000, 0x4000_0000, 0xE000_0000, variable, variable]);
        moves += &format!("{:08X} ", Move { actor: 2 * k + 1, target: 2 * k }.word());
    }
    // The last receipt has no use for its variable.
    words.extend([0x3000_0000, 0x1000_0000, 0x8000_0001, 0, 0]);
    words.extend([0; 29]);
    let script: String = words.iter().map(|word| format!("{word:08X} ")).collect();
    let folder = Folder::new("double");
    let content =
        |moves: &str| format!("script\n{script}\nmoves\n{moves}\nrule\n70000000 40000001 30000000\npatience\n00001000\n");
    // The tree that stands has 2^28 items, and does not fit.
    let output = explain(&[&folder.file(content(&moves))]);
    assert_eq!((text(&output.stdout).lines().next(), output.status.code()), (Some("refused 19 at 0"), Some(REFUSED)));
    // Without the moves it does, and the itinerary goes through all of them.
    let output = explain(&[&folder.file(content(""))]);
    let told = text(&output.stdout);
    assert_eq!((told.lines().last(), output.status.code()), (Some("receipt (part 57) takes the message of part 56"), Some(YES)));
    assert!(told.contains("\nan itinerary of 29 moves:\n"), "{told}");
}

/// A file that is not as it must be: `./run` says the same of it, word for word.
fn is_wrong(folder: &Folder, content: &[u8]) {
    let file = folder.file(content);
    let output = explain(&[&file]);
    assert_eq!((output.status.code(), output.stdout.len()), (Some(UNREADABLE), 0));
    let run = Command::new("bash").args(["run", &file]).current_dir(ROOT).output().expect("bash runs");
    assert_eq!(run.status.code(), Some(UNREADABLE));
    assert_eq!(text(&output.stderr), text(&run.stderr));
}

#[test]
fn wrong_files() {
    let folder = Folder::new("wrong");
    let rest = "script\n00000000\nmoves\nrule\n00000000\n";
    for content in [
        "",
        "\n\n",
        "script\n\n1000\n",
        "# none\n\n  10000000\nscript\n",
        "scripts\n",
        "script\n00000000\nMoves\n",
        "script 00000000\n",
        "script\n00000000\nmoves\n\nscript\n00000000\n",
        "script\nmoves\nrule\n",
        "moves\nrule\npatience\n00000001\n",
        "script\rmoves\n",
        "patience\n00000001 00000002\n",
        "script\n0000000g\n",
        "script\nabcdefgh\n",
        "script\nabcdef01 x\n",
    ] {
        is_wrong(&folder, content.as_bytes());
    }
    for word in ["xyz", "1000000", "100000000", "1000000G", "0x000000", "-0000001", "+0000001", "'", "ä"] {
        is_wrong(&folder, format!("script # the script\n00000000\n00000000 {word}\nmoves\nrule\n0\n").as_bytes());
    }
    is_wrong(&folder, format!("{rest}patience # none\n\n").as_bytes());
    is_wrong(&folder, format!("{rest}patience\n00000001\n00000002\n").as_bytes());
}

#[test]
fn no_file_and_wrong_usage() {
    for (words, what) in [
        (&["examples/nothing.hex"][..], "explain: examples/nothing.hex: no such file, or none that can be read\n"),
        (&["examples"], "explain: examples: no such file, or none that can be read\n"),
        (&[], "usage: explain FILE.hex\n"),
        (&["examples/enter.hex", "examples/open.hex"], "usage: explain FILE.hex\n"),
    ] {
        let output = explain(words);
        assert_eq!(text(&output.stderr), what);
        assert_eq!((output.status.code(), output.stdout.len()), (Some(UNREADABLE), 0));
    }
}

/// Headings in another order, small letters, lines that end as on other systems, and no end of the last one.
#[test]
fn other_layouts() {
    let lists = "patience\r\n00000009# nine\r\nrule\r\n40000002\r\n\t40000001 30000000\r\nmoves\n10000102\n";
    let script = "script\n10000000 80000001 20000000 a0000000 80000002 00000000 00000000\n10000000 80000002 00000000 00000000";
    let folder = Folder::new("layouts");
    let output = explain(&[&folder.file([lists, script].concat())]);
    assert_eq!((output.status.code(), text(&output.stderr).as_str()), (Some(YES), ""));
    assert_eq!(output.stdout, explain(&["examples/enter.hex"]).stdout);
}

/// The examples cut short, and with one byte changed: each is answered, refused or not read.
#[test]
fn damaged_files() {
    let folder = Folder::new("damaged");
    let mut met = [0; 4];
    for name in ["leave", "receipt", "seats"] {
        let content = fs::read(Path::new(ROOT).join(format!("examples/{name}.hex"))).expect("an example");
        let digits: Vec<usize> = (0..content.len()).filter(|at| content[*at].is_ascii_hexdigit()).collect();
        let cut = (0..content.len()).step_by(61).map(|at| content[..at].to_vec());
        let changed = digits.iter().step_by(3).map(|at| {
            let mut other = content.clone();
            other[*at] = b"0123456789ABCDEFx #"[at % 19];
            other
        });
        for content in cut.chain(changed) {
            let status = explain(&[&folder.file(&content)]).status.code().expect("a status");
            assert!((YES..=UNREADABLE).contains(&status), "{status}: {}", String::from_utf8_lossy(&content));
            met[status as usize] += 1;
        }
    }
    assert!(met.iter().all(|count| *count > 10), "{met:?}");
}
