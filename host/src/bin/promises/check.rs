//! Where the document says that each name is, and whether it is there.

use crate::document::{Block, Group, Text, Token};
use crate::place::{
    by_crates, by_place, kind_of, of_crate, proofs_of, some_is, Column, Kind, Place, Sort, Target,
    HEADS_OF_LAWS,
};
use crate::tree::Tree;
use std::collections::{HashMap, HashSet};
use std::path::{Path, PathBuf};

pub struct Checker {
    tree: Tree,
    short: HashMap<String, String>,
    columns: Vec<Column>,
    /// The files of the names of this row or paragraph.
    known: HashMap<String, PathBuf>,
    laws: HashSet<(PathBuf, String)>,
    edits: HashSet<(PathBuf, String)>,
    pub files: HashSet<PathBuf>,
    pub names: usize,
    pub tried: usize,
    /// Each with its line; 0 where it has none.
    pub misses: Vec<(usize, String)>,
}

const FILES_OF_LAWS: [&str; 4] = ["Laws", "Demands", "Duds", "Slips"];
const NO_PLACE: &str = "has no file";

impl Checker {
    pub fn new(tree: Tree) -> Checker {
        Checker {
            tree,
            short: HashMap::new(),
            columns: Vec::new(),
            known: HashMap::new(),
            laws: HashSet::new(),
            edits: HashSet::new(),
            files: HashSet::new(),
            names: 0,
            tried: 0,
            misses: Vec::new(),
        }
    }

    pub fn document(&mut self, blocks: &[Block]) {
        for block in blocks {
            self.known.clear();
            match block {
                Block::Heading(text) => self.text(text, &Column::default()),
                Block::Paragraph(text) => {
                    self.abbreviations(text);
                    self.text(text, &Column::default());
                }
                Block::Head(cells) => self.head(cells),
                Block::Row(cells) => self.row(cells),
            }
        }
        self.all_named();
    }

    fn miss(&mut self, line: usize, what: &str) {
        self.misses
            .push((line, format!("docs/PROMISES.md:{line}: {what}")));
    }

    /// Of the first paragraph: `x` is `crate`.
    fn abbreviations(&mut self, text: &Text) {
        if !self.short.is_empty() {
            return;
        }
        for pair in text.tokens.windows(2) {
            if pair[1].before == " is " && self.tree.is_crate(&pair[1].name) {
                self.short
                    .insert(pair[0].name.clone(), pair[1].name.clone());
            }
        }
    }

    fn head(&mut self, cells: &[Text]) {
        self.columns.clear();
        for cell in cells {
            self.text(cell, &Column::default());
            let title = cell.tokens.first().map_or(&cell.rest, |t| &t.before);
            let place = cell.tokens.first().and_then(|t| self.place(&t.name));
            self.columns.push(Column {
                laws: HEADS_OF_LAWS.iter().any(|head| title.starts_with(head)),
                edits: title.starts_with("Tried by"),
                place,
            });
        }
    }

    fn row(&mut self, cells: &[Text]) {
        let columns = self.columns.clone();
        if cells.len() != columns.len() {
            let line = cells.first().map_or(0, |cell| cell.line);
            self.miss(line, "the row has not as many cells as the head");
        }
        for (cell, column) in cells.iter().zip(&columns) {
            self.text(cell, column);
        }
    }

    fn text(&mut self, text: &Text, column: &Column) {
        if !text.whole {
            self.miss(text.line, "a backtick has no partner");
        }
        let mut here = column.clone();
        for group in text.groups() {
            if text.before(&group).contains(';') {
                here.place = column.place.clone();
            }
            self.group(text, &group, &here);
            if let (Some(crates), true) = (
                self.crates(text.names(&group)),
                text.behind(&group).starts_with(':'),
            ) {
                here.place = Some(Place::Crates(crates));
            }
        }
    }

    fn crates(&self, tokens: &[Token]) -> Option<Vec<String>> {
        let mut crates = Vec::new();
        for token in tokens {
            match self.place(&token.name)? {
                Place::Crates(names) => crates.extend(names),
                Place::File(_) => return None,
            }
        }
        Some(crates)
    }

    fn full(&self, name: &str) -> String {
        self.short.get(name).map_or(name, String::as_str).into()
    }

    fn place(&self, name: &str) -> Option<Place> {
        if name.starts_with("crates/") || name.starts_with("host/") {
            return Some(Place::File(PathBuf::from(name)));
        }
        if let Some((start, rest)) = name.split_once('/') {
            let file = of_crate(&self.full(start)).join(format!("{rest}.antt"));
            return Some(Place::File(file));
        }
        let full = self.full(name);
        self.tree.is_crate(&full).then(|| Place::Crates(vec![full]))
    }

    fn group(&mut self, text: &Text, group: &Group, column: &Column) {
        let kind = kind_of(text.before(group));
        for token in text.names(group) {
            let place = self.place(&token.name);
            match place {
                Some(Place::File(file)) => self.file(token, file),
                Some(Place::Crates(_)) if kind == Kind::Plain => (),
                _ => self.name(text, group, token, column),
            }
        }
    }

    fn file(&mut self, token: &Token, file: PathBuf) {
        if !self.tree.is_file(&file) {
            let what = format!("`{}`: there is no {}", token.name, file.display());
            self.miss(token.line, &what);
        }
        self.files.insert(file);
    }

    fn name(&mut self, text: &Text, group: &Group, token: &Token, column: &Column) {
        match self.target(text, group, &token.name, column) {
            Some(target) => self.look(token, &target),
            None => self.miss(token.line, &format!("`{}` {NO_PLACE}", token.name)),
        }
    }

    /// By what stands behind the list, or else by the row, or else by the column.
    fn target(
        &mut self,
        text: &Text,
        group: &Group,
        name: &str,
        column: &Column,
    ) -> Option<Target> {
        let kind = kind_of(text.before(group));
        let behind = text.behind(group);
        if behind.starts_with(" of each crate with code") {
            let crates = self.tree.crates_with_code();
            return by_crates(kind, &crates, column);
        }
        if let Some(next) = text.tokens.get(group.end) {
            let place = self.place(&next.name);
            if behind == " of " && place.is_none() {
                return self.member(text, group.end, column);
            }
            if behind == " of " || behind == " (" && place.is_some() {
                return by_place(kind, &place?, column, false);
            }
        }
        if kind == Kind::Plain && !column.edits {
            if let Some(file) = self.known.get(name) {
                return Some(Target {
                    sort: Sort::Name,
                    files: vec![file.clone()],
                });
            }
        }
        by_place(kind, column.place.as_ref()?, column, column.laws)
    }

    /// A field or a constructor of what the next token names.
    fn member(&mut self, text: &Text, next: usize, column: &Column) -> Option<Target> {
        let group = text.groups().into_iter().find(|g| g.first == next)?;
        let owner = &text.tokens[next].name;
        let of = self.target(text, &group, owner, column)?;
        Some(Target {
            sort: Sort::Member(owner.clone()),
            files: of.files,
        })
    }

    fn look(&mut self, token: &Token, target: &Target) {
        for file in &target.files {
            if !self.is_there(file, &target.sort, &token.name) {
                let what = format!("`{}` is not in {}", token.name, file.display());
                self.miss(token.line, &what);
            }
            self.note(file, &target.sort, &token.name);
            if let Sort::Law = target.sort {
                self.proof(token, file);
            }
        }
    }

    fn is_there(&mut self, file: &Path, sort: &Sort, name: &str) -> bool {
        if let Sort::Edit = sort {
            return self
                .tree
                .edits_in(file)
                .is_some_and(|edits| some_is(edits, name));
        }
        let Some(found) = self.tree.declared(file) else {
            return false;
        };
        match sort {
            Sort::Function => some_is(&found.functions, name),
            Sort::Member(owner) => found.members.contains(&(owner.clone(), name.into())),
            _ => some_is(&found.names, name),
        }
    }

    fn proof(&mut self, token: &Token, specs: &Path) {
        let file = proofs_of(specs);
        let found = self.tree.declared(&file);
        if found.is_some_and(|found| found.proved.contains(&token.name)) {
            return;
        }
        let what = format!("`{}` is not proved in {}", token.name, file.display());
        self.miss(token.line, &what);
    }

    fn note(&mut self, file: &Path, sort: &Sort, name: &str) {
        let named = (file.to_path_buf(), name.to_string());
        if let Sort::Edit = sort {
            self.tried += 1;
            self.edits.insert(named);
            return;
        }
        self.names += 1;
        self.files.insert(file.to_path_buf());
        self.known.insert(name.into(), file.into());
        if let Sort::Law = sort {
            self.laws.insert(named);
        }
    }

    /// Each edit and each law of the tree is named.
    fn all_named(&mut self) {
        for name in self.tree.crates() {
            self.edits_named(&of_crate(&name).join("must-fail"));
            for stem in FILES_OF_LAWS {
                self.laws_named(&of_crate(&name).join(format!("specs/{stem}.antt")));
            }
        }
        self.misses.sort();
    }

    fn edits_named(&mut self, directory: &Path) {
        let edits = self.tree.edits_in(directory).cloned().unwrap_or_default();
        for edit in edits {
            let what = format!("`{edit}` of {}", directory.display());
            let named = self.edits.contains(&(directory.to_path_buf(), edit));
            self.demand(named, &what);
        }
    }

    fn laws_named(&mut self, specs: &Path) {
        let mut laws = HashSet::new();
        if let Some(found) = self.tree.declared(specs) {
            laws.extend(found.stated.iter().cloned());
        }
        if let Some(found) = self.tree.declared(&proofs_of(specs)) {
            laws.extend(found.proved.iter().cloned());
        }
        for law in laws {
            let what = format!("`{law}` of {}", specs.display());
            let named = self.laws.contains(&(specs.to_path_buf(), law));
            self.demand(named, &what);
        }
    }

    fn demand(&mut self, named: bool, what: &str) {
        if !named {
            let what = format!("docs/PROMISES.md: {what} is not named");
            self.misses.push((0, what));
        }
    }
}
