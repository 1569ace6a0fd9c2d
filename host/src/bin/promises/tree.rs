//! What the files under crates/ declare.

use std::collections::{BTreeMap, HashMap, HashSet};
use std::path::{Path, PathBuf};
use std::{fs, io};

#[derive(Default)]
pub struct Declared {
    pub names: HashSet<String>,
    pub functions: HashSet<String>,
    /// Fields and constructors, each behind its record or type.
    pub members: HashSet<(String, String)>,
    /// Laws: `X : Type 0`.
    pub stated: HashSet<String>,
    /// Laws with a proof: `X : laws.X`.
    pub proved: HashSet<String>,
}

/// Its paths start at `root`.
pub struct Tree {
    root: PathBuf,
    /// A crate, and the names of its must-fail edits.
    edits: BTreeMap<String, HashSet<String>>,
    files: HashMap<PathBuf, Option<Declared>>,
}

const MODIFIERS: [&str; 7] = [
    "abbrev",
    "unfoldable",
    "opaque",
    "pub",
    "pub(crate)",
    "extern",
    "\"C\"",
];

/// The words of a line from its name on, without modifiers.
fn from_name(line: &str) -> Vec<&str> {
    line.split_whitespace()
        .skip_while(|word| MODIFIERS.contains(word))
        .collect()
}

impl Declared {
    fn of_antt(text: &str) -> Declared {
        let mut found = Declared::default();
        let mut owner = String::new();
        for line in text.lines() {
            let words = from_name(line);
            let indented = line.starts_with(' ');
            match words[..] {
                [name, ":", ..] if indented && !owner.is_empty() => found.member(&owner, name),
                _ if indented => (),
                ["record" | "data", name, ..] => {
                    owner = name.to_string();
                    found.names.insert(owner.clone());
                }
                [name, ":", ref shape @ ..] => {
                    owner.clear();
                    found.name(name, shape.first().unwrap_or(&""));
                }
                [] => (),
                [word, ..] if word.starts_with("--") => (),
                _ => owner.clear(),
            }
        }
        found
    }

    fn name(&mut self, name: &str, shape: &str) {
        self.names.insert(name.to_string());
        if shape == "Type" {
            self.stated.insert(name.to_string());
        }
        if shape.split_once('.').is_some_and(|(_, last)| last == name) {
            self.proved.insert(name.to_string());
        }
    }

    fn member(&mut self, owner: &str, name: &str) {
        self.names.insert(name.to_string());
        self.members.insert((owner.to_string(), name.to_string()));
    }

    fn of_rt(text: &str) -> Declared {
        let mut found = Declared::default();
        for line in text.lines() {
            let words = from_name(line);
            let (Some(item), Some(rest)) = (words.first(), words.get(1)) else {
                continue;
            };
            let name = rest.split(['(', ':', '<', '{']).next().unwrap_or(rest);
            if !matches!(*item, "fn" | "enum" | "struct" | "const") {
                continue;
            }
            found.names.insert(name.to_string());
            if *item == "fn" {
                found.functions.insert(name.to_string());
            }
        }
        found
    }

    fn read(path: &Path) -> Option<Declared> {
        let text = fs::read_to_string(path).ok()?;
        if path.extension()? == "rt" {
            return Some(Declared::of_rt(&text));
        }
        Some(Declared::of_antt(&text))
    }
}

fn names_in(directory: &Path) -> io::Result<Vec<String>> {
    let mut names = Vec::new();
    for entry in fs::read_dir(directory)? {
        names.push(entry?.file_name().to_string_lossy().into_owned());
    }
    Ok(names)
}

impl Tree {
    pub fn read(root: &Path) -> io::Result<Tree> {
        let mut edits = BTreeMap::new();
        let crates = root.join("crates");
        for name in names_in(&crates)? {
            let directory = crates.join(&name).join("must-fail");
            // Those that the gate tries, and those that it leaves out.
            let mut files = names_in(&directory).unwrap_or_default();
            files.extend(names_in(&directory.join("more")).unwrap_or_default());
            let stems = files.iter().filter_map(|file| file.strip_suffix(".edit"));
            edits.insert(name, stems.map(str::to_string).collect());
        }
        Ok(Tree {
            root: root.to_path_buf(),
            edits,
            files: HashMap::new(),
        })
    }

    pub fn declared(&mut self, path: &Path) -> Option<&Declared> {
        self.files
            .entry(path.to_path_buf())
            .or_insert_with(|| Declared::read(&self.root.join(path)))
            .as_ref()
    }

    pub fn is_file(&self, path: &Path) -> bool {
        self.root.join(path).is_file()
    }

    /// `directory` is crates/NAME/must-fail.
    pub fn edits_in(&self, directory: &Path) -> Option<&HashSet<String>> {
        let name = directory.parent()?.file_name()?.to_str()?;
        self.edits.get(name)
    }

    pub fn is_crate(&self, name: &str) -> bool {
        self.edits.contains_key(name)
    }

    pub fn crates(&self) -> Vec<String> {
        self.edits.keys().cloned().collect()
    }

    pub fn crates_with_code(&mut self) -> Vec<String> {
        let mut crates = self.crates();
        crates.retain(|name| {
            let source = Path::new("crates").join(name).join("src/lib.rt");
            self.declared(&source)
                .is_some_and(|found| !found.functions.is_empty())
        });
        crates
    }
}
