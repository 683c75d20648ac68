//! The changes of one clause: a walk through it, and how a change is noted.

use super::Change;
use crate::expressions::{Expr, Node};
use crate::files::{Clause, File};
use crate::rules::Rules;
use crate::text::{cut, plain, repeats};
use crate::types::Type;
use crate::typing::Typing;
use std::collections::{HashMap, HashSet};

/// The part of a clause that a change of something in it is shown with.
#[derive(Clone)]
pub struct Shown {
    pub label: String,
    pub start: usize,
    pub end: usize,
    /// It is the rest of a list.
    pub tail: bool,
    /// It is a field that a record keeps.
    pub kept: bool,
}

impl Shown {
    pub fn of(expr: &Expr) -> Shown {
        Shown { label: String::new(), start: expr.start, end: expr.end, tail: false, kept: false }
    }
}

/// Makes the changes of one clause.
pub struct Maker<'a> {
    pub rules: &'a Rules,
    pub file: usize,
    pub place: usize,
    pub clause: &'a Clause,
    pub typing: Typing<'a>,
    /// What the names of `let` stand for.
    pub lets: HashMap<String, String>,
    pub made: &'a mut Vec<Change>,
}

impl Maker<'_> {
    pub fn source(&self) -> &File {
        &self.rules.files[self.file]
    }

    pub fn text(&self, expr: &Expr) -> String {
        plain(&self.source().text[expr.start..expr.end])
    }

    pub fn ty(&self, expr: &Expr) -> Option<Type> {
        self.typing.ty(expr).cloned()
    }

    pub fn uses(&self, name: &str) -> bool {
        self.source().uses.iter().any(|(used, _)| used == name)
    }

    pub fn add(&mut self, kind: &'static str, span: (usize, usize), new: &str, shown: &Shown) {
        self.add_using(kind, span, new, shown, None);
    }

    pub fn add_using(
        &mut self,
        kind: &'static str,
        span: (usize, usize),
        new: &str,
        shown: &Shown,
        uses: Option<String>,
    ) {
        let text = &self.source().text;
        let old = plain(&text[shown.start..shown.end]);
        let changed = plain(&[&text[shown.start..span.0], new, &text[span.1..shown.end]].concat());
        let label = &shown.label;
        if old != changed && !repeats(&changed) {
            let (old, changed) = cut(&old, &changed);
            self.push(kind, span, new, uses, &format!("{label}{old} → {label}{changed}"));
        }
    }

    pub fn push(
        &mut self,
        kind: &'static str,
        (start, end): (usize, usize),
        new: &str,
        uses: Option<String>,
        shown: &str,
    ) {
        let source = self.source();
        let definition = &source.definitions[self.place];
        let head = if definition.clauses.len() > 1 { &self.clause.head } else { &definition.name };
        let identity = format!("{}.antt  {head}  {kind}  {shown}", source.name);
        let definition = definition.name.clone();
        self.made.push(Change { file: self.file, definition, kind, start, end, new: new.to_string(), uses, identity });
    }

    pub fn replace(&mut self, kind: &'static str, expr: &Expr, new: &str, shown: &Shown) {
        self.add(kind, (expr.start, expr.end), new, shown);
    }

    /// Two expressions in each other's place.
    pub fn swap(&mut self, kind: &'static str, one: &Expr, other: &Expr, shown: &Shown) {
        let between = &self.source().text[one.end..other.start];
        let new = [&self.text(other), between, &self.text(one)].concat();
        self.add(kind, (one.start, other.end), &new, shown);
    }

    pub fn visit(&mut self, expr: &Expr, shown: &Shown) {
        match &expr.node {
            Node::Number => self.number(expr, shown),
            Node::Name(name) => self.name(expr, name, shown),
            Node::Field(inner, field) => {
                self.field(expr, inner, field, shown);
                self.visit(inner, shown);
            }
            Node::Group(inner) => self.visit(inner, &Shown { tail: false, ..shown.clone() }),
            Node::Tuple(parts) => {
                for part in parts {
                    self.visit(part, &Shown::of(expr));
                }
            }
            Node::Call(head, arguments) => {
                self.call(expr, head, arguments);
                for child in expr.children() {
                    if !self.shrinks(head, child) {
                        self.visit(child, &Shown::of(expr));
                    }
                }
            }
            Node::Operator(operator, at, left, right) => {
                self.operator(expr, operator, *at, left, right);
                let list = operator == "∷" || operator == "++";
                for child in [left, right] {
                    let shown = Shown::of(if list { child } else { expr });
                    let tail = operator == "∷" && child.start == right.start;
                    self.visit(child, &Shown { tail, ..shown });
                }
            }
            Node::Record(fields) => {
                self.record(expr, fields);
                for (name, value) in fields {
                    let kept = matches!(&value.node, Node::Field(_, field) if field == name);
                    self.visit(value, &Shown { label: format!("{name} = "), kept, ..Shown::of(value) });
                }
            }
            Node::Let(name, value, body) => {
                self.visit(value, &Shown { label: format!("let {name} = "), ..Shown::of(value) });
                self.visit(body, &Shown::of(body));
            }
        }
    }

    /// In a call of the definition by itself, what must get smaller: a name that stands inside a pattern.
    pub fn shrinks(&self, head: &Expr, argument: &Expr) -> bool {
        let Node::Name(name) = &argument.node else {
            return false;
        };
        let own = head.head() == self.source().definitions[self.place].name;
        own && self.clause.patterns.iter().any(|pattern| {
            let mut names = HashSet::new();
            pattern.names(&mut names);
            matches!(pattern.node, Node::Group(_)) && names.contains(name)
        })
    }
}
