//! A file of definitions, and the types that the code declares.

use crate::expressions::{Expr, Parser};
use crate::text::{plain, tokens, Token};
use crate::types::{read_type, Type};
use std::fs;
use std::path::Path;

pub struct Clause {
    /// The name and the patterns.
    pub head: String,
    pub patterns: Vec<Expr>,
    pub body: Expr,
    /// How many expressions there are in both.
    pub nodes: usize,
}

pub struct Definition {
    pub name: String,
    pub ty: Type,
    pub clauses: Vec<Clause>,
}

#[derive(Default)]
pub struct File {
    pub name: String,
    pub text: String,
    /// Names that the file uses, with the module that each comes from.
    pub uses: Vec<(String, String)>,
    /// Constructors of its own, with their types.
    pub constructors: Vec<(String, Type)>,
    pub records: Vec<(String, Vec<(String, Type)>)>,
    pub definitions: Vec<Definition>,
    /// The names of definitions that give a type.
    statements: Vec<String>,
}

/// A line that begins at the margin, with the indented ones after it.
fn chunks(text: &str) -> Vec<(usize, &str)> {
    let mut starts = Vec::new();
    let mut place = 0;
    for line in text.split_inclusive('\n') {
        if line.starts_with(|c: char| !c.is_whitespace()) {
            starts.push(place);
        }
        place += line.len();
    }
    starts.push(text.len());
    starts.windows(2).map(|pair| (pair[0], &text[pair[0]..pair[1]])).collect()
}

impl File {
    pub fn read(folder: &Path, name: &str) -> Result<File, String> {
        let path = folder.join(format!("{name}.antt"));
        let text = fs::read_to_string(&path).map_err(|error| format!("{}: {error}", path.display()))?;
        let mut file = File { name: name.to_string(), ..File::default() };
        for (start, chunk) in chunks(&text) {
            file.chunk(&tokens(chunk, start), &text).ok_or_else(|| {
                let line = text[..start].matches('\n').count() + 1;
                format!("{}:{line}: the program cannot read this", path.display())
            })?;
        }
        file.text = text;
        Ok(file)
    }

    fn chunk(&mut self, tokens: &[Token], text: &str) -> Option<()> {
        let Some(first) = tokens.first() else {
            return Some(());
        };
        let words: Vec<&str> = tokens.iter().map(|token| token.text.as_str()).collect();
        match (first.text.as_str(), words.get(1).copied().unwrap_or("")) {
            ("use", _) => self.uses(&words),
            ("unfolding", _) => Some(()),
            // One that takes something is a statement.
            ("pub", "data" | "record") if words.get(3..7) != Some(&[":", "Type", "0", "where"]) => Some(()),
            ("pub", "data") => self.data(tokens, text),
            ("pub", "record") => self.declared(tokens, text),
            _ => {
                let marks = ["abbrev", "unfoldable", "opaque", "pub"];
                let name = words.iter().take_while(|word| marks.contains(word)).count();
                if words.get(name + 1) == Some(&":") {
                    return self.definition(words[name], &tokens[name + 2..]);
                }
                self.clause(tokens, text)
            }
        }
    }

    /// A definition by its type. One that gives a type is a statement, and no part of it changes.
    fn definition(&mut self, name: &str, tokens: &[Token]) -> Option<()> {
        let name = name.to_string();
        if matches!(tokens, [.., ty, level] if ty.text == "Type" && level.text == "0") {
            self.statements.push(name);
        } else {
            self.definitions.push(Definition { name, ty: read_type(tokens)?, clauses: Vec::new() });
        }
        Some(())
    }

    /// `use module.{a, b as c}`
    fn uses(&mut self, words: &[&str]) -> Option<()> {
        let module = words.get(1)?.trim_end_matches('.');
        let names = words.get(3..words.len().checked_sub(1)?)?;
        for name in names.split(|word| *word == ",") {
            self.uses.push((name.last()?.to_string(), module.to_string()));
        }
        Some(())
    }

    /// The lines after `where`, each as its names and its type.
    fn lines(tokens: &[Token], text: &str) -> Option<Vec<(Vec<String>, Type)>> {
        let after = tokens.iter().position(|token| token.text == "where")? + 1;
        let mut found = Vec::new();
        let line = |token: &Token| text[..token.start].matches('\n').count();
        for part in tokens[after..].chunk_by(|one, other| line(one) == line(other)) {
            let colon = part.iter().position(|token| token.text == ":")?;
            let names = part[..colon].iter().map(|token| token.text.clone()).filter(|name| name != "pub");
            found.push((names.collect(), read_type(&part[colon + 1..])?));
        }
        Some(found)
    }

    fn data(&mut self, tokens: &[Token], text: &str) -> Option<()> {
        for (names, ty) in File::lines(tokens, text)? {
            self.constructors.extend(names.into_iter().map(|name| (name, ty.clone())));
        }
        Some(())
    }

    fn declared(&mut self, tokens: &[Token], text: &str) -> Option<()> {
        let fields = File::lines(tokens, text)?.into_iter().map(|(mut names, ty)| (names.remove(0), ty));
        self.records.push((tokens.get(2)?.text.clone(), fields.collect()));
        Some(())
    }

    fn clause(&mut self, tokens: &[Token], text: &str) -> Option<()> {
        if self.statements.contains(&tokens[0].text) {
            return Some(());
        }
        let equals = tokens.iter().position(|token| token.text == "=")?;
        let definition = self.definitions.last_mut().filter(|definition| definition.name == tokens[0].text)?;
        let mut left = Parser::new(&tokens[1..equals]);
        let mut patterns = Vec::new();
        while let Some(pattern) = left.atom() {
            patterns.push(pattern);
        }
        let mut right = Parser::new(&tokens[equals + 1..]);
        right.next = left.next;
        let body = right.whole()?;
        if left.place != equals - 1 || right.place != tokens.len() - equals - 1 {
            return None;
        }
        let head = plain(&text[tokens[0].start..tokens[equals].start]);
        definition.clauses.push(Clause { head, patterns, body, nodes: right.next });
        Some(())
    }
}

/// The types that src/lib.rt declares.
#[derive(Default)]
pub struct Declared {
    pub enums: Vec<(String, Vec<String>)>,
    pub structs: Vec<(String, Vec<(String, Type)>)>,
}

impl Declared {
    pub fn read(text: &str) -> Declared {
        let mut found = Declared::default();
        let mut lines = text.lines();
        while let Some(line) = lines.next() {
            let Some(rest) = line.strip_prefix("pub ").and_then(|rest| rest.strip_suffix(" {")) else {
                continue;
            };
            let inside = lines.by_ref().take_while(|line| *line != "}").map(|line| line.trim().trim_end_matches(','));
            if let Some(name) = rest.strip_prefix("enum ") {
                found.enums.push((name.to_string(), inside.map(str::to_string).collect()));
            } else if let Some(name) = rest.strip_prefix("struct ") {
                found.structs.push((name.to_string(), inside.filter_map(Declared::field).collect()));
            }
        }
        found
    }

    fn field(line: &str) -> Option<(String, Type)> {
        let (name, ty) = line.strip_prefix("pub ")?.split_once(": ")?;
        let ty = if ["u8", "u16", "u32", "u64", "usize"].contains(&ty) { "ℕ" } else { ty };
        Some((name.to_string(), Type::plain(ty)))
    }
}

/// src/lib.rt without its functions and without what they alone use.
pub fn without_functions(text: &str) -> String {
    let mut kept = String::new();
    let mut inside = false;
    for line in text.lines().filter(|line| !line.starts_with("ghost use")) {
        inside |= line.starts_with("    pub fn ") || line.starts_with("    fn ");
        if !inside {
            kept.push_str(line);
            kept.push('\n');
        }
        inside &= line != "    }";
    }
    kept
}
