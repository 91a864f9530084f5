//! Holds docs/notes to the sources: in the sections "What the contracts rule out" of the notes each public function has its
//! row, with two wrong answers and an edit that tries one, and each edit that is named is there. A function may have rows in
//! several notes. The table of lines and edits is the one that tests/figures makes. Holds docs/TRACE.md to them too: what it
//! names is there.

#[cfg(test)]
mod tests {
    use std::collections::BTreeSet;
    use std::fs;
    use std::path::{Path, PathBuf};
    use std::process::Command;

    /// A row of the table: the function, its wrong answers, and the edits that try them.
    struct Row {
        function: String,
        wrong: Vec<String>,
        edits: Vec<String>,
    }

    fn root() -> PathBuf {
        Path::new(env!("CARGO_MANIFEST_DIR")).join("../..")
    }

    fn read(path: &Path) -> String {
        fs::read_to_string(path).unwrap_or_else(|e| panic!("{}: {e}", path.display()))
    }

    /// The paths in a folder, in order; none where there is no such folder.
    fn entries(folder: &Path) -> Vec<PathBuf> {
        let Ok(all) = fs::read_dir(folder) else { return Vec::new() };
        let mut paths: Vec<PathBuf> = all.map(|entry| entry.expect("an entry").path()).collect();
        paths.sort();
        paths
    }

    fn name(path: &Path) -> String {
        path.file_stem().expect("a name").to_string_lossy().into_owned()
    }

    /// The name of the function that a line declares as public.
    fn declared(line: &str) -> Option<&str> {
        let line = line.trim_start();
        let rest = line.strip_prefix("pub fn ").or_else(|| line.strip_prefix("pub extern \"C\" fn "))?;
        rest.split(|c: char| !c.is_alphanumeric() && c != '_').next()
    }

    /// The type whose methods follow a line, as `Bindings` behind `impl Bindings {` or `impl<const N: usize> Bindings<N> {`.
    fn owner(line: &str) -> Option<&str> {
        let rest = line.strip_prefix("impl")?;
        let rest = if rest.starts_with('<') { &rest[rest.find("> ")? + 1..] } else { rest };
        rest.trim_start().split(|c: char| !c.is_alphanumeric() && c != '_').next()
    }

    /// The public functions of a source text, a method behind its type, as type::method.
    fn functions(text: &str) -> Vec<String> {
        let (mut found, mut of) = (Vec::new(), None);
        for line in text.lines() {
            of = if line == "}" { None } else { owner(line).or(of) };
            if let Some(function) = declared(line) {
                found.push(of.map_or(function.to_string(), |of| format!("{of}::{function}")));
            }
        }
        found
    }

    /// Every public function of every crate, as crate::function or crate::type::method.
    fn public_functions() -> BTreeSet<String> {
        let mut found = BTreeSet::new();
        for folder in entries(&root().join("crates")) {
            for file in entries(&folder.join("src")) {
                found.extend(functions(&read(&file)).iter().map(|function| format!("{}::{function}", name(&folder))));
            }
        }
        found
    }

    /// Every edit of every crate, as crate/edit.
    fn edits() -> BTreeSet<String> {
        let mut found = BTreeSet::new();
        for folder in entries(&root().join("crates")) {
            for file in entries(&folder.join("must-fail")) {
                found.insert(format!("{}/{}", name(&folder), name(&file)));
            }
        }
        found
    }

    /// What stands between backquotes in a cell.
    fn quoted(cell: &str) -> Vec<String> {
        cell.split('`').skip(1).step_by(2).map(str::to_string).collect()
    }

    /// The notes' sections on what the contracts rule out, of each note that has one.
    fn sections() -> Vec<String> {
        let notes = entries(&root().join("docs/notes"));
        let texts = notes.iter().filter(|path| path.extension().is_some_and(|e| e == "md")).map(|path| read(path));
        let section = |text: String| Some(text.split_once("\n## What the contracts rule out\n")?.1.split("\n## ").next()?.to_string());
        texts.filter_map(section).collect()
    }

    /// A row whose first cell is one function.
    fn row(line: &str) -> Row {
        let cells: Vec<&str> = line.trim_matches('|').split('|').collect();
        assert_eq!(cells.len(), 3, "three cells: {line}");
        let function = quoted(cells[0]);
        assert_eq!(function.len(), 1, "one function: {line}");
        Row {
            function: function[0].clone(),
            wrong: cells[1].split(';').map(|answer| answer.trim().to_string()).collect(),
            edits: quoted(cells[2]),
        }
    }

    /// The rows of all notes.
    fn rows() -> Vec<Row> {
        sections().iter().flat_map(|section| section.lines()).filter(|line| line.starts_with("| `")).map(row).collect()
    }

    #[test]
    fn each_public_function_has_a_row() {
        let told: BTreeSet<String> = rows().into_iter().map(|row| row.function).collect();
        let missing: Vec<String> = public_functions().difference(&told).cloned().collect();
        assert!(missing.is_empty(), "no row: {missing:?}");
    }

    #[test]
    fn each_row_is_of_a_function() {
        // The program's own function, which no crate can call, is met by a host through standard input.
        let mut functions = public_functions();
        functions.insert("skycorbel::reply".to_string());
        let unknown: Vec<String> = rows().into_iter().map(|row| row.function).filter(|f| !functions.contains(f)).collect();
        assert!(unknown.is_empty(), "no such public function: {unknown:?}");
    }

    #[test]
    fn each_row_has_two_wrong_answers_and_an_edit() {
        for row in rows() {
            assert!(row.wrong.len() >= 2, "{}: {:?}", row.function, row.wrong);
            assert!(row.wrong.iter().all(|answer| !answer.is_empty()), "{}: {:?}", row.function, row.wrong);
            assert!(!row.edits.is_empty(), "{} has no edit", row.function);
        }
    }

    #[test]
    fn each_edit_that_is_named_is_there() {
        let there = edits();
        for row in rows() {
            let missing: Vec<&String> = row.edits.iter().filter(|edit| !there.contains(*edit)).collect();
            assert!(missing.is_empty(), "{}: no such edit: {missing:?}", row.function);
        }
    }

    #[test]
    fn the_figures_are_the_tree_s() {
        let output = Command::new("bash").args(["tests/figures", "--check"]).current_dir(root()).output().expect("bash runs");
        let said = String::from_utf8([output.stdout, output.stderr].concat()).expect("text");
        assert!(output.status.success(), "tests/figures --write puts it right:\n{said}");
    }

    #[test]
    fn an_edit_is_of_the_function_s_own_crate_or_of_one_below() {
        let text = read(&root().join("crates.txt"));
        let lines = text.lines().filter(|line| !line.starts_with('#'));
        // behind a name may stand what kind of library it is
        let heads = lines.filter_map(|line| line.split_once(':')).map(|(head, _)| head);
        let order: Vec<&str> = heads.filter_map(|head| head.split_whitespace().next()).collect();
        let place = |name: &str| order.iter().position(|other| *other == name).expect("a crate");
        for row in rows() {
            let own = place(row.function.split("::").next().expect("a crate"));
            for edit in &row.edits {
                assert!(place(edit.split('/').next().expect("a crate")) <= own, "{}: {edit}", row.function);
            }
        }
    }

    /// The names of the crates.
    fn crates() -> BTreeSet<String> {
        entries(&root().join("crates")).iter().map(|folder| name(folder)).collect()
    }

    /// Whether a text has a name, not as a piece of another.
    fn has(text: &str, name: &str) -> bool {
        let piece = |c: char| c.is_alphanumeric() || "-_'′".contains(c);
        text.match_indices(name).any(|(at, _)| {
            !text[..at].chars().next_back().is_some_and(piece) && !text[at + name.len()..].chars().next().is_some_and(piece)
        })
    }

    /// The references of a cell, as (crate, module, names): "crate, Module: `a`, `b`; Other: `c`" has two, both of that crate.
    fn references(cell: &str) -> Vec<(String, String, Vec<String>)> {
        let all = crates();
        let mut found = Vec::new();
        let mut own: Option<String> = None;
        for piece in cell.split([';', '(']) {
            let Some((head, names)) = piece.split_once(": `") else { continue };
            let module = head.rsplit([' ', ',']).next().expect("a word");
            if !module.starts_with(|c: char| c.is_ascii_uppercase()) {
                continue;
            }
            let before = head[..head.len() - module.len()].trim_end_matches([' ', ',']);
            let word = before.rsplit(' ').next().expect("a word");
            if all.contains(word) {
                own = Some(word.to_string());
            }
            // what has a crate before it is a function, and not of this module
            let names: Vec<String> = quoted(&format!("`{names}")).into_iter().filter(|name| !name.contains("::")).collect();
            if let Some(own) = own.as_ref().filter(|_| !names.is_empty()) {
                found.push((own.clone(), module.to_string(), names));
            }
        }
        found
    }

    #[test]
    fn the_trace_names_what_is_there() {
        let text = read(&root().join("docs/TRACE.md"));
        let (edits, mut seen) = (edits(), 0);
        for cell in text.lines().filter(|line| line.starts_with('|')).flat_map(|line| line.split('|')) {
            for (own, module, names) in references(cell) {
                let folder = root().join("crates").join(&own);
                let files = ["specs", "proofs"].map(|kind| folder.join(kind).join(format!("{module}.antt")));
                let sources: String = files.iter().filter(|file| file.exists()).map(|file| read(file)).collect();
                assert!(!sources.is_empty(), "{own} has no module {module}: {cell}");
                for name in names {
                    assert!(has(&sources, &name), "{own}, {module} has no {name}: {cell}");
                    seen += 1;
                }
            }
            for quote in quoted(cell) {
                if let Some((own, function)) = quote.split_once("::") {
                    let files = entries(&root().join("crates").join(own).join("src"));
                    let there = files.iter().any(|file| has(&read(file), &format!("fn {function}")));
                    assert!(there, "no function {quote}: {cell}");
                } else if quote.split_once('/').is_some_and(|(own, _)| crates().contains(own)) {
                    assert!(edits.contains(&quote), "no edit {quote}: {cell}");
                }
            }
        }
        assert!(seen > 150, "only {seen} names were found to look for");
    }
}
