//! All files of definitions together, and what the names in them are.

use crate::expressions::Node;
use crate::files::{Declared, File};
use crate::text::{number, tokens};
use crate::types::{read_type, Type};
use std::collections::HashMap;
use std::fs;
use std::path::Path;

/// The files of definitions, each after those that it uses. All other files of specs/ are the table's.
pub const FILES: [&str; 9] = ["Name", "Record", "Ring", "Calls", "Feeder", "Moves", "Machine", "Watch", "Promises"];

/// The table's files of proofs/; the proofs stand in the others.
pub const TABLE: [&str; 4] = ["Table", "Judged", "Watched", "Worded"];

/// What the rules use of the libraries. A single small letter is any type.
const LIBRARY: [(&str, &str); 24] = [
    ("zero", "ℕ"),
    ("suc", "ℕ → ℕ"),
    ("min", "ℕ → ℕ → ℕ"),
    ("true", "Bool"),
    ("false", "Bool"),
    ("not", "Bool → Bool"),
    ("cond", "Bool → a → a → a"),
    ("[]", "List a"),
    ("map", "(a → b) → List a → List b"),
    ("none", "Option a"),
    ("some", "a → Option a"),
    ("None", "Option a"),
    ("Some", "a → Option a"),
    ("eqb", "ℕ → ℕ → Bool"),
    ("leb", "ℕ → ℕ → Bool"),
    ("ltb", "ℕ → ℕ → Bool"),
    ("length", "List a → ℕ"),
    ("get_or", "List a → ℕ → a → a"),
    ("set", "List a → ℕ → a → List a"),
    ("take", "ℕ → List a → List a"),
    ("drop", "ℕ → List a → List a"),
    ("replicate", "ℕ → a → List a"),
    ("pos", "ℕ → ℤ"),
    ("negsuc", "ℕ → ℤ"),
];

/// All files, and what the names in them are.
pub struct Rules {
    pub files: Vec<File>,
    pub declared: Declared,
    pub records: HashMap<String, Vec<(String, Type)>>,
    /// The types of library names.
    library: HashMap<&'static str, Type>,
}

/// What a name in a file is.
#[derive(Clone, Copy, PartialEq)]
pub enum Is {
    Constructor,
    Defined,
    Library,
}

impl Rules {
    pub fn read(folder: &Path) -> Result<Rules, String> {
        let path = folder.join("src/lib.rt");
        let text = fs::read_to_string(&path).map_err(|error| format!("{}: {error}", path.display()))?;
        let declared = Declared::read(&text);
        let files: Result<Vec<File>, String> =
            FILES.iter().map(|name| File::read(&folder.join("specs"), name)).collect();
        let files = files?;
        let own = files.iter().flat_map(|file| file.records.iter().cloned());
        let records = declared.structs.iter().cloned().chain(own).collect();
        let library = LIBRARY.iter().filter_map(|(name, ty)| Some((*name, read_type(&tokens(ty, 0))?))).collect();
        Ok(Rules { files, declared, records, library })
    }

    pub fn file(&self, name: &str) -> Option<&File> {
        self.files.iter().find(|file| file.name == name)
    }

    /// The file of definitions that a module is.
    pub fn file_of(&self, module: &str) -> Option<&File> {
        let (before, last) = module.rsplit_once('.')?;
        before.ends_with("specs").then(|| self.file(last)).flatten()
    }

    fn in_file(&self, file: &File, name: &str) -> Option<(Is, Type)> {
        if let Some((_, ty)) = file.constructors.iter().find(|(constructor, _)| constructor == name) {
            return Some((Is::Constructor, ty.clone()));
        }
        let definition = file.definitions.iter().find(|definition| definition.name == name)?;
        Some((Is::Defined, definition.ty.clone()))
    }

    /// What a name is in this file; nothing for one that is not in scope.
    pub fn lookup(&self, file: &File, name: &str) -> Option<(Is, Type)> {
        if let Some((ty, variant)) = name.split_once('.') {
            let (_, variants) = self.declared.enums.iter().find(|(enumeration, _)| enumeration == ty)?;
            let there = variants.iter().any(|one| one == variant) && file.uses.iter().any(|(used, _)| used == ty);
            return there.then(|| (Is::Constructor, Type::plain(ty)));
        }
        if let Some(found) = self.in_file(file, name) {
            return Some(found);
        }
        let (_, module) = file.uses.iter().find(|(used, _)| used == name)?;
        if let Some(other) = self.file_of(module) {
            return self.in_file(other, name);
        }
        let ty = self.library.get(name)?.clone();
        let makes = ["zero", "suc", "true", "false", "[]", "none", "some"].contains(&name);
        Some((if makes { Is::Constructor } else { Is::Library }, ty))
    }

    /// The constructors of the file that has this one.
    pub fn constructors(&self, name: &str) -> &[(String, Type)] {
        let all = self.files.iter().map(|file| &file.constructors[..]);
        all.into_iter().find(|all| all.iter().any(|(one, _)| one == name)).unwrap_or_default()
    }

    pub fn has(&self, file: &File, name: &str) -> bool {
        self.lookup(file, name).is_some() || file.uses.iter().any(|(used, _)| used == name)
    }

    /// The number that a name without arguments stands for.
    pub fn value(&self, name: &str) -> Option<u128> {
        let (file, definition) = self
            .files
            .iter()
            .flat_map(|file| file.definitions.iter().map(move |definition| (file, definition)))
            .find(|(_, definition)| definition.name == name)?;
        let [clause] = &definition.clauses[..] else {
            return None;
        };
        match &clause.body.node {
            Node::Number if clause.patterns.is_empty() => number(&file.text[clause.body.start..clause.body.end]),
            Node::Name(other) if clause.patterns.is_empty() && other != name => self.value(other),
            _ => None,
        }
    }

    /// What the fresh record has in a field of a part of it, as a text that needs no names but constructors.
    pub fn fresh(&self, part: &str, field: &str) -> Option<String> {
        let file = self.file("Record")?;
        let definition = file.definitions.iter().find(|definition| definition.name == "fresh")?;
        let Node::Record(parts) = &definition.clauses.first()?.body.node else {
            return None;
        };
        let (_, value) = parts.iter().find(|(name, _)| name == part)?;
        let Node::Record(fields) = &value.node else {
            return None;
        };
        let (_, value) = fields.iter().find(|(name, _)| name == field)?;
        match &value.node {
            Node::Number | Node::Name(_) => Some(file.text[value.start..value.end].to_string()),
            _ => None,
        }
    }
}
