//! Checks that each name in backticks of docs/PROMISES.md is where it is said to be, and that each law
//! and each must-fail edit is named there. Run at the root of the repository.

mod check;
mod document;
mod place;
mod tree;

use check::Checker;
use std::path::Path;
use std::process::ExitCode;
use std::{fs, io};
use tree::Tree;

fn checked(text: &str, root: &Path) -> io::Result<Checker> {
    let mut checker = Checker::new(Tree::read(root)?);
    checker.document(&document::blocks(text));
    Ok(checker)
}

fn run() -> io::Result<bool> {
    let text = fs::read_to_string("docs/PROMISES.md")?;
    let checker = checked(&text, Path::new("."))?;
    for (_, miss) in &checker.misses {
        println!("{miss}");
    }
    if !checker.misses.is_empty() {
        return Ok(false);
    }
    let (names, edits, files) = (checker.names, checker.tried, checker.files.len());
    println!("promises: {names} names, {edits} edits, {files} files");
    Ok(true)
}

fn main() -> ExitCode {
    match run() {
        Ok(true) => ExitCode::SUCCESS,
        Ok(false) => ExitCode::FAILURE,
        Err(error) => {
            println!("promises: {error}");
            ExitCode::FAILURE
        }
    }
}

#[cfg(test)]
mod tests {
    use super::*;
    use std::path::PathBuf;
    use std::sync::atomic::{AtomicUsize, Ordering};
    use std::{env, process};

    const DOCUMENT: &str = "docs/PROMISES.md";
    const TERMS: &str = "crates/alpha/specs/Terms.antt";
    const LAWS: &str = "crates/alpha/specs/Laws.antt";
    const PROOFS: &str = "crates/alpha/proofs/Laws.antt";
    const CODE: &str = "crates/alpha/src/lib.rt";

    const DOCUMENT_TEXT: &str = "\
# Promises

`al` is `alpha` and `be` is `beta`;
`al/specs/Terms` is the file `crates/alpha/specs/Terms.antt`.

The words are `width` (`al/specs/Terms`), field `start` of `Span` (`al/specs/Terms`),
and the contract of `go` (`alpha`).

| Sentence | Law (`al/specs/Laws`) | Tried by (`alpha`) |
|---|---|---|
| It ends | `Ends` | `never_ends` |
| It is even | `Even` | `odd`; `beta`: `twice` |
| It is new | | |
";

    const TERMS_TEXT: &str = "\
-- no height : ℕ
pub width : ℕ
width = half + half

pub record Span : Type 0 where
  pub start : ℕ

pub record Gap : Type 0 where
  pub stop : ℕ
";

    const FILES: [(&str, &str); 9] = [
        (DOCUMENT, DOCUMENT_TEXT),
        (TERMS, TERMS_TEXT),
        (LAWS, "abbrev pub Ends : Type 0\nabbrev pub Even : Type 0\n"),
        (PROOFS, "pub Ends : laws.Ends\npub Even : laws.Even\n"),
        (
            CODE,
            "pub const LIMIT: u16 = 9;\npub extern \"C\" fn go() {\n    step();\n}\n",
        ),
        ("crates/alpha/must-fail/never_ends.edit", ""),
        ("crates/alpha/must-fail/odd.edit", ""),
        ("crates/beta/must-fail/more/twice.edit", ""),
        ("crates/beta/specs/Terms.antt", "pub length : ℕ\n"),
    ];

    /// A file, what stands there and what is put for it; the miss, from behind the document's name on.
    type Case = (&'static str, &'static str, &'static str, &'static str);

    #[rustfmt::skip]
    const CASES: &[Case] = &[
        // Declared nowhere.
        (DOCUMENT, "`width`", "`depth`", ":6: `depth` is not in crates/alpha/specs/Terms.antt"),
        (DOCUMENT, "`go`", "`gone`", ":7: `gone` is not in crates/alpha/src/lib.rt"),
        // Declared in another file.
        (DOCUMENT, "`width`", "`length`", ":6: `length` is not in crates/alpha/specs/Terms.antt"),
        (DOCUMENT, "`width` (`al/specs/Terms`)", "`width` (`al/specs/Laws`)", ":6: `width` is not in crates/alpha/specs/Laws.antt"),
        (DOCUMENT, "`go` (`alpha`)", "`go` (`beta`)", ":7: `go` is not in crates/beta/src/lib.rt"),
        // Only mentioned: in a comment, in a definition, in a body.
        (DOCUMENT, "`width`", "`height`", ":6: `height` is not in crates/alpha/specs/Terms.antt"),
        (DOCUMENT, "`width`", "`half`", ":6: `half` is not in crates/alpha/specs/Terms.antt"),
        (DOCUMENT, "`go`", "`step`", ":7: `step` is not in crates/alpha/src/lib.rt"),
        // Declared, but as something else: a field of another record, a constant.
        (DOCUMENT, "`start`", "`stop`", ":6: `stop` is not in crates/alpha/specs/Terms.antt"),
        (DOCUMENT, "`go`", "`LIMIT`", ":7: `LIMIT` is not in crates/alpha/src/lib.rt"),
        // Stated, and not proved under its name.
        (PROOFS, "pub Ends : laws.Ends\n", "", ":11: `Ends` is not proved in crates/alpha/proofs/Laws.antt"),
        (PROOFS, "pub Ends :", "pub ends :", ":11: `Ends` is not proved in crates/alpha/proofs/Laws.antt"),
        (PROOFS, "laws.Ends", "laws.Even", ":11: `Ends` is not proved in crates/alpha/proofs/Laws.antt"),
        // No such edit, and an edit of another crate.
        (DOCUMENT, "`never_ends`", "`never_ends`, `never_starts`", ":11: `never_starts` is not in crates/alpha/must-fail"),
        (DOCUMENT, "`never_ends`", "`never_ends`, `twice`", ":11: `twice` is not in crates/alpha/must-fail"),
        (DOCUMENT, "`twice`", "`twice`, `odd`", ":12: `odd` is not in crates/beta/must-fail"),
        // An edit and a law that are not named.
        (DOCUMENT, "`odd`; ", "", ": `odd` of crates/alpha/must-fail is not named"),
        (DOCUMENT, "`beta`: `twice`", "", ": `twice` of crates/beta/must-fail is not named"),
        (DOCUMENT, "`Even`", "", ": `Even` of crates/alpha/specs/Laws.antt is not named"),
        (LAWS, "abbrev pub Even", "abbrev pub More : Type 0\nabbrev pub Even", ": `More` of crates/alpha/specs/Laws.antt is not named"),
        (PROOFS, "pub Even", "pub More : laws.More\npub Even", ": `More` of crates/alpha/specs/Laws.antt is not named"),
        // No such file.
        (DOCUMENT, "`al/specs/Terms` is", "`al/specs/Words` is", ":4: `al/specs/Words`: there is no crates/alpha/specs/Words.antt"),
        (DOCUMENT, "`crates/alpha/specs/Terms.antt`", "`crates/alpha/Terms`", ":4: `crates/alpha/Terms`: there is no crates/alpha/Terms"),
        (DOCUMENT, "It is new", "`host/new.rs`", ":13: `host/new.rs`: there is no host/new.rs"),
        // A name with no file.
        (DOCUMENT, " (`alpha`).", ".", ":7: `go` has no file"),
        (DOCUMENT, "It is new", "`width`", ":13: `width` has no file"),
        // An odd backtick; of a paragraph, its first line is told.
        (DOCUMENT, "Terms.antt`.", "Terms.antt", ":3: a backtick has no partner"),
        (DOCUMENT, "`twice`", "`twice", ":12: a backtick has no partner"),
        // A cell too many, and one too few.
        (DOCUMENT, "new | | |", "new | | | |", ":13: the row has not as many cells as the head"),
        (DOCUMENT, "new | | |", "new | |", ":13: the row has not as many cells as the head"),
    ];

    /// A fresh directory, removed at its end.
    struct Root(PathBuf);

    impl Root {
        fn new() -> io::Result<Root> {
            static MADE: AtomicUsize = AtomicUsize::new(0);
            let number = MADE.fetch_add(1, Ordering::Relaxed);
            let name = format!("promises-{}-{number}", process::id());
            let path = env::temp_dir().join(name);
            fs::create_dir(&path)?;
            Ok(Root(path))
        }

        fn write(&self, file: &str, text: &str) -> io::Result<()> {
            let path = self.0.join(file);
            fs::create_dir_all(path.parent().unwrap_or(&self.0))?;
            fs::write(path, text)
        }
    }

    impl Drop for Root {
        fn drop(&mut self) {
            let _ = fs::remove_dir_all(&self.0);
        }
    }

    fn checked_with(change: impl Fn(&str, &str) -> String) -> io::Result<Checker> {
        let root = Root::new()?;
        for (file, text) in FILES {
            root.write(file, &change(file, text))?;
        }
        checked(&change(DOCUMENT, DOCUMENT_TEXT), &root.0)
    }

    fn replaced(text: &str, old: &str, new: &str) -> String {
        assert_eq!(text.matches(old).count(), 1, "{old}");
        text.replace(old, new)
    }

    #[test]
    fn nothing_missed() -> io::Result<()> {
        let checker = checked_with(|_, text| text.into())?;
        assert_eq!(checker.misses, []);
        let counts = (checker.names, checker.tried, checker.files.len());
        assert_eq!(counts, (6, 3, 3));
        Ok(())
    }

    #[test]
    fn one_miss_each() -> io::Result<()> {
        for &(changed, old, new, told) in CASES {
            let checker = checked_with(|file, text| {
                if file == changed {
                    return replaced(text, old, new);
                }
                text.into()
            })?;
            let misses: Vec<&String> = checker.misses.iter().map(|(_, miss)| miss).collect();
            assert_eq!(misses, [&format!("{DOCUMENT}{told}")], "{old} -> {new}");
        }
        Ok(())
    }
}
