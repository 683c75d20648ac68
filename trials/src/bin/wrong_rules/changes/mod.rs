//! The changes: what they are, and all of them.

mod calls;
mod maker;
mod names;
mod records;

use crate::expressions::{Expr, Node};
use crate::rules::{Is, Rules};
use crate::text::{cut, plain};
use crate::typing::Typing;
use maker::{Maker, Shown};
use std::collections::{HashMap, HashSet};

pub struct Change {
    pub file: usize,
    pub definition: String,
    pub kind: &'static str,
    /// What stands there, and what is put there.
    start: usize,
    end: usize,
    new: String,
    /// A line that the file needs for it.
    uses: Option<String>,
    /// What the change is called, without places.
    pub identity: String,
}

impl Change {
    /// The file's text with the change.
    pub fn text(&self, rules: &Rules) -> String {
        let text = &rules.files[self.file].text;
        let changed = [&text[..self.start], &self.new, &text[self.end..]].concat();
        match &self.uses {
            Some(line) => format!("{line}\n{changed}"),
            None => changed,
        }
    }
}

/// The bodies of neighbouring clauses exchanged, where each can stand in the other's place. Two constructors are left
/// out: each is changed by itself.
fn exchanged(rules: &Rules, file: usize, place: usize, made: &mut Vec<Change>) {
    let source = &rules.files[file];
    let definition = &source.definitions[place];
    let fits = |body: &Expr, from: &Typing, to: &Typing| {
        let mut names = HashSet::new();
        body.names(&mut names);
        from.locals.iter().filter(|(name, _)| names.contains(name)).all(|(name, ty)| {
            to.locals.iter().any(|(other, found)| other == name && to.resolved(found) == from.resolved(ty))
        })
    };
    for pair in definition.clauses.windows(2) {
        let [one, other] = pair else {
            continue;
        };
        let constructors = [one, other].iter().all(|clause| {
            let name = clause.body.head();
            matches!(clause.body.node, Node::Name(_))
                && matches!(rules.lookup(source, name), Some((Is::Constructor, _)))
        });
        let (first, second) =
            (Typing::of(rules, source, definition, one), Typing::of(rules, source, definition, other));
        if constructors || !fits(&one.body, &first, &second) || !fits(&other.body, &second, &first) {
            continue;
        }
        let (start, end) = (one.body.start, other.body.end);
        let text = &source.text;
        let bodies = (&text[start..one.body.end], &text[other.body.start..end]);
        let new = [bodies.1, &text[one.body.end..other.body.start], bodies.0].concat();
        let (old, changed) = cut(&plain(bodies.0), &plain(bodies.1));
        if old == changed {
            continue;
        }
        let kind = "clauses exchanged";
        let identity = format!("{}.antt  {}  {kind}  {old} → {changed}", source.name, one.head);
        let definition = definition.name.clone();
        made.push(Change { file, definition, kind, start, end, new, uses: None, identity });
    }
}

/// All changes, in the order of the text, each text once. Those of one name get a number.
pub fn changes(rules: &Rules) -> Result<Vec<Change>, String> {
    let mut made = Vec::new();
    for (file, source) in rules.files.iter().enumerate() {
        let from = made.len();
        for (place, definition) in source.definitions.iter().enumerate() {
            for clause in &definition.clauses {
                let typing = Typing::of(rules, source, definition, clause);
                if let Some(name) = &typing.strange {
                    return Err(format!("{}.antt: {}: LIBRARY has no type of {name}", source.name, definition.name));
                }
                let mut lets = HashMap::new();
                clause.body.lets(&source.text, &mut lets);
                Maker { rules, file, place, clause, typing, lets, made: &mut made }
                    .visit(&clause.body, &Shown::of(&clause.body));
            }
            exchanged(rules, file, place, &mut made);
        }
        let mut seen = HashSet::new();
        let new: Vec<Change> = made.drain(from..).filter(|change| seen.insert(change.text(rules))).collect();
        made.extend(new);
    }
    let mut counts: HashMap<String, (usize, usize)> = HashMap::new();
    for change in &made {
        counts.entry(change.identity.clone()).or_default().0 += 1;
    }
    for change in &mut made {
        if let Some((all, given)) = counts.get_mut(&change.identity).filter(|(all, _)| *all > 1) {
            *given += 1;
            change.identity.push_str(&format!("  #{given} of {all}"));
        }
    }
    Ok(made)
}
