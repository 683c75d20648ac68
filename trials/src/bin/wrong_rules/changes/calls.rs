//! Changes of a call or an operator.

use super::maker::{Maker, Shown};
use crate::expressions::{Expr, Node};
use crate::rules::Is;
use crate::text::number;
use crate::types::{arrows, Type};

/// Library names that stand for each other.
const FAMILIES: [&[&str]; 3] = [&["eqb", "leb", "ltb"], &["take", "drop"], &["pos", "negsuc"]];

/// Functions that give the same with their arguments swapped.
const SYMMETRIC: [&str; 4] = ["eqb", "min", "exactly", "same"];

impl Maker<'_> {
    pub fn call(&mut self, expr: &Expr, head: &Expr, arguments: &[Expr]) {
        let shown = Shown::of(expr);
        self.other_function(head, arguments, &shown);
        self.shorter(expr, head, arguments, &shown);
        match (head.head(), arguments) {
            ("cond", [_, first, second]) => {
                self.swap("cond turned round", first, second, &shown);
                self.replace("first arm always", expr, &self.text(first), &shown);
                self.replace("second arm always", expr, &self.text(second), &shown);
            }
            ("not", [test]) => self.replace("not dropped", expr, &self.text(test), &shown),
            ("implies", [first, second]) => {
                self.replace("condition dropped", expr, &self.text(second), &shown);
                self.swap("arguments swapped", first, second, &shown);
            }
            ("exactly", [first, second]) => {
                self.replace("one way only", head, "implies", &shown);
                let turned = format!("implies {} {}", self.text(second), self.text(first));
                self.replace("one way only", expr, &turned, &shown);
            }
            ("some", [_]) if self.uses("none") => self.replace("other constructor", expr, "none", &shown),
            _ => {
                self.dropped(expr, arguments, &shown);
                self.swapped(head, arguments, &shown);
            }
        }
    }

    /// Another function of the library. Left out is what says the same, `leb x 0`, and what another number says too:
    /// `ltb x 5` is `leb x 4`.
    fn other_function(&mut self, head: &Expr, arguments: &[Expr], shown: &Shown) {
        let name = head.head();
        let Some(family) = FAMILIES.iter().find(|family| family.contains(&name)) else {
            return;
        };
        let values: Vec<Option<u128>> = arguments.iter().map(|argument| self.value(argument)).collect();
        for other in family.iter().filter(|other| **other != name) {
            let same = match (name, *other) {
                ("eqb", "leb") => values.last() == Some(&Some(0)),
                ("leb", "ltb") | ("ltb", "leb") => values.iter().any(Option::is_some),
                _ => false,
            };
            if self.uses(other) && !same {
                self.replace("other function", head, other, shown);
            }
        }
    }

    /// The number that an expression is.
    fn value(&self, expr: &Expr) -> Option<u128> {
        match &expr.node {
            Node::Number => number(&self.text(expr)),
            Node::Name(name) if !self.typing.scope(expr).iter().any(|(local, _)| local == name) => {
                self.rules.value(name)
            }
            _ => None,
        }
    }

    /// A constructor that takes the first of the arguments only, the shortest.
    fn shorter(&mut self, expr: &Expr, head: &Expr, arguments: &[Expr], shown: &Shown) {
        let Some((Is::Constructor, ty)) = self.rules.lookup(self.source(), head.head()) else {
            return;
        };
        let own = arrows(&ty);
        let others = self.rules.constructors(head.head()).iter().map(|(name, ty)| (name, arrows(ty)));
        let fits = |(_, other): &(&String, Vec<&Type>)| {
            let (taken, made) = (other.len() - 1, own.len() - 1);
            taken < made && other[taken] == own[made] && other[..taken] == own[..taken]
        };
        if let Some((name, other)) = others.filter(fits).min_by_key(|(_, other)| other.len()) {
            let words: Vec<String> = arguments[..other.len() - 1].iter().map(|argument| self.text(argument)).collect();
            let new = [std::slice::from_ref(name), &words[..]].concat().join(" ");
            if self.rules.has(self.source(), name) {
                self.replace("other constructor", expr, &new, shown);
            }
        }
    }

    /// The call replaced by an argument of its type; a part of the record or more by the last such argument only.
    pub fn dropped(&mut self, expr: &Expr, arguments: &[Expr], shown: &Shown) {
        let Some(ty) = self.ty(expr) else {
            return;
        };
        let same: Vec<&Expr> = arguments.iter().filter(|argument| self.ty(argument) == Some(ty.clone())).collect();
        let from = if self.rules.records.contains_key(ty.name()) { same.len().saturating_sub(1) } else { 0 };
        for argument in &same[from..] {
            self.replace("call dropped", expr, &self.text(argument), shown);
        }
    }

    fn swapped(&mut self, head: &Expr, arguments: &[Expr], shown: &Shown) {
        if SYMMETRIC.contains(&head.head()) {
            return;
        }
        for (place, one) in arguments.iter().enumerate() {
            for other in &arguments[place + 1..] {
                let shrinks = self.shrinks(head, one) || self.shrinks(head, other);
                if self.ty(one).is_some() && self.ty(one) == self.ty(other) && !shrinks {
                    self.swap("arguments swapped", one, other, shown);
                }
            }
        }
    }

    pub fn operator(&mut self, expr: &Expr, operator: &str, at: usize, left: &Expr, right: &Expr) {
        let shown = Shown::of(expr);
        let sign = (at, at + operator.len());
        match operator {
            "&&" | "||" => {
                let other = if operator == "&&" { "||" } else { "&&" };
                if self.uses(&format!("◌{other}◌")) {
                    self.add("and for or", sign, other, &shown);
                }
                // A chain groups to the right, so that the left side is one test, and the right one too at its end.
                self.add("test dropped", (expr.start, right.start), "", &shown);
                if !matches!(&right.node, Node::Operator(inner, ..) if inner == operator) {
                    self.add("test dropped", (left.end, expr.end), "", &shown);
                }
            }
            "∷" => {
                self.add("element dropped", (expr.start, right.start), "", &shown);
                // A list of tests is their conjunction, whatever their order.
                let tests = self.ty(left).is_some_and(|ty| ty.name() == "Bool");
                if let Node::Operator(next, _, second, _) = &right.node {
                    if next == "∷" && !tests {
                        self.swap("neighbours swapped", left, second, &shown);
                    }
                }
            }
            "++" => self.joined(expr, left, right, &shown),
            "+" | "-" | "/" | "%" | "^" => {
                let other = match operator {
                    "+" => "-",
                    "-" => "+",
                    "/" => "%",
                    "%" => "/",
                    _ => "*",
                };
                if self.uses(&format!("◌{other}◌")) {
                    self.add("other operator", sign, other, &shown);
                }
                self.add("right side dropped", (left.end, expr.end), "", &shown);
            }
            _ => {}
        }
    }

    /// A list of lists: one dropped, neighbours swapped.
    fn joined(&mut self, expr: &Expr, left: &Expr, right: &Expr, shown: &Shown) {
        self.add("element dropped", (expr.start, right.start), "", shown);
        match &right.node {
            Node::Operator(next, _, second, _) if next == "++" => {
                self.swap("neighbours swapped", left, second, shown);
            }
            Node::Operator(..) => {}
            _ => {
                self.add("element dropped", (left.end, expr.end), "", shown);
                self.swap("neighbours swapped", left, right, shown);
            }
        }
    }
}
