//! The places that names can have, and which one the words around a name mean.

use std::collections::HashSet;
use std::path::{Path, PathBuf};

/// What the words before a list say of its names.
#[derive(Clone, Copy, PartialEq)]
pub enum Kind {
    Plain,
    Law,
    Contract,
    OfContracts,
    Witness,
}

#[derive(Clone)]
pub enum Place {
    File(PathBuf),
    Crates(Vec<String>),
}

#[derive(Clone)]
pub enum Sort {
    Name,
    Law,
    Function,
    Member(String),
    Edit,
}

pub struct Target {
    pub sort: Sort,
    /// Of edits: directories.
    pub files: Vec<PathBuf>,
}

#[derive(Clone, Default)]
pub struct Column {
    pub laws: bool,
    pub edits: bool,
    pub place: Option<Place>,
}

const KINDS: [(&str, Kind); 10] = [
    ("law", Kind::Law),
    ("laws", Kind::Law),
    ("contract of", Kind::Contract),
    ("contracts of", Kind::Contract),
    ("itself", Kind::OfContracts),
    ("itself,", Kind::OfContracts),
    ("themselves", Kind::OfContracts),
    ("themselves,", Kind::OfContracts),
    ("witness", Kind::Witness),
    ("witnesses", Kind::Witness),
];
pub const HEADS_OF_LAWS: [&str; 3] = ["Law", "Theorem", "Demand"];

pub fn kind_of(before: &str) -> Kind {
    let words = before.trim_end();
    let ends = |word: &str| {
        words
            .strip_suffix(word)
            .is_some_and(|rest| rest.is_empty() || rest.ends_with([' ', '(']))
    };
    let found = KINDS.iter().find(|(word, _)| ends(word));
    found.map_or(Kind::Plain, |(_, kind)| *kind)
}

pub fn of_crate(name: &str) -> PathBuf {
    Path::new("crates").join(name)
}

pub fn proofs_of(specs: &Path) -> PathBuf {
    PathBuf::from(specs.to_string_lossy().replace("/specs/", "/proofs/"))
}

/// `..` in a name stands for any text.
pub fn some_is(names: &HashSet<String>, name: &str) -> bool {
    let Some((start, end)) = name.split_once("..") else {
        return names.contains(name);
    };
    names.iter().any(|full| {
        full.strip_prefix(start)
            .and_then(|rest| rest.strip_suffix(end))
            .is_some_and(|rest| !rest.is_empty())
    })
}

pub fn by_place(kind: Kind, place: &Place, column: &Column, laws: bool) -> Option<Target> {
    let file = match place {
        Place::Crates(crates) => return by_crates(kind, crates, column),
        Place::File(file) => file.clone(),
    };
    let sort = match kind {
        Kind::Law => Sort::Law,
        Kind::Contract => Sort::Function,
        Kind::Plain if laws => Sort::Law,
        _ => Sort::Name,
    };
    Some(Target {
        sort,
        files: vec![file],
    })
}

pub fn by_crates(kind: Kind, crates: &[String], column: &Column) -> Option<Target> {
    let (sort, path) = match kind {
        Kind::Law => (Sort::Law, "specs/Laws.antt"),
        Kind::Contract => (Sort::Function, "src/lib.rt"),
        Kind::OfContracts => (Sort::Name, "proofs/Contracts.antt"),
        Kind::Witness => (Sort::Name, "proofs/Witnesses.antt"),
        Kind::Plain if column.edits => (Sort::Edit, "must-fail"),
        Kind::Plain => return None,
    };
    let file = |name: &String| match kind {
        Kind::Law if name == "demands" => of_crate(name).join("specs/Demands.antt"),
        _ => of_crate(name).join(path),
    };
    Some(Target {
        sort,
        files: crates.iter().map(file).collect(),
    })
}
