//! Changes of a number or a name.

use super::maker::{Maker, Shown};
use crate::expressions::Expr;
use crate::files::File;
use crate::rules::Is;
use crate::text::number;
use crate::types::{arrows, plain_type, Type};

impl Maker<'_> {
    pub fn number(&mut self, expr: &Expr, shown: &Shown) {
        let text = self.text(expr);
        let Some(value) = number(&text) else {
            return;
        };
        for near in [Some(value + 1), value.checked_sub(1)].into_iter().flatten() {
            let new = if text.starts_with("0x") { format!("0x{near:02X}") } else { near.to_string() };
            self.replace("other number", expr, &new, shown);
        }
    }

    pub fn name(&mut self, expr: &Expr, name: &str, shown: &Shown) {
        let scope = self.typing.scope(expr);
        if scope.iter().any(|(local, _)| *local == name) {
            return self.local(expr, name, shown);
        }
        let Some((is, ty)) = self.rules.lookup(self.source(), name) else {
            return;
        };
        match is {
            Is::Library => {}
            Is::Constructor => self.constructor(expr, name, &ty, shown),
            Is::Defined if ty.is_number() => self.constant(expr, name, shown),
            Is::Defined => {
                let tests = arrows(&ty).last().is_some_and(|ty| ty.name() == "Bool");
                let most = if tests { 3 } else { 2 };
                for (other, uses) in self.alternatives(expr, name, &ty).into_iter().take(most) {
                    self.add_using("other definition", (expr.start, expr.end), &other, shown, uses);
                }
            }
        }
    }

    /// The two nearest names of the same type.
    fn local(&mut self, expr: &Expr, name: &str, shown: &Shown) {
        let scope = self.typing.scope(expr);
        let own = scope.iter().position(|(local, _)| *local == name).unwrap_or(0);
        let ty = scope[own].1.clone();
        if !ty.known() {
            return;
        }
        let mut others: Vec<(usize, String)> = scope
            .iter()
            .enumerate()
            .filter(|(place, (_, other))| *place != own && *other == ty)
            .map(|(place, (other, _))| (place.abs_diff(own), other.to_string()))
            .collect();
        others.sort();
        for (_, other) in others.into_iter().take(2) {
            self.replace("other variable", expr, &other, shown);
        }
        if self.rules.records.contains_key(ty.name()) {
            let path = self.paths(expr, ty.name(), 1).into_iter().find(|path| self.lets.get(name) != Some(path));
            if let Some(path) = path {
                self.replace("other variable", expr, &path, shown);
            }
        }
    }

    fn constructor(&mut self, expr: &Expr, name: &str, ty: &Type, shown: &Shown) {
        let rules = self.rules;
        let alone = shown.start == expr.start && shown.end == expr.end;
        let others: Vec<String> = match name {
            "true" => vec!["false".to_string()],
            "false" => vec!["true".to_string()],
            "[]" => return self.empty(expr, shown),
            "none" => {
                let number = self.ty(expr).is_some_and(|ty| ty.known() && plain_type(&ty) == "Option ℕ");
                let some = if alone { "some 0" } else { "(some 0)" };
                if number {
                    vec![some.to_string()]
                } else {
                    Vec::new()
                }
            }
            "some" | "zero" | "suc" => return,
            _ => match name.split_once('.') {
                Some((enumeration, _)) => {
                    let variants = rules.declared.enums.iter().find(|(other, _)| other == enumeration);
                    let variants = variants.map(|(_, variants)| variants.as_slice()).unwrap_or_default();
                    variants.iter().map(|variant| format!("{enumeration}.{variant}")).collect()
                }
                None => self.siblings(name, ty, alone),
            },
        };
        for other in others {
            let needed = other.trim_start_matches('(').split(' ').next().unwrap_or("");
            if self.rules.has(self.source(), needed) {
                self.replace("other constructor", expr, &other, shown);
            }
        }
    }

    /// The constructors before and after this one that make the same from the same; for one that stands alone, one of
    /// a number.
    fn siblings(&self, name: &str, ty: &Type, alone: bool) -> Vec<String> {
        let all = self.rules.constructors(name);
        let same: Vec<&String> = all.iter().filter(|(_, other)| other == ty).map(|(one, _)| one).collect();
        let found = neighbours(&same, name, 2);
        let number = Type::Function(Box::new(Type::plain("ℕ")), Box::new(ty.clone()));
        match all.iter().find(|(_, other)| found.is_empty() && *other == number) {
            Some((other, _)) if alone => vec![format!("{other} 0")],
            Some((other, _)) => vec![format!("({other} 0)")],
            None => found,
        }
    }

    /// A list that is empty gets an element, where it is not the end of one.
    fn empty(&mut self, expr: &Expr, shown: &Shown) {
        let Some(ty) = self.ty(expr).filter(|_| !shown.tail && self.uses("◌∷◌")) else {
            return;
        };
        let element = match plain_type(&ty).as_str() {
            "List ℕ" => "0",
            "List Reason" => "n601",
            "List Line" => "refuse n601 true",
            _ => return,
        };
        let alone = shown.start == expr.start && shown.end == expr.end;
        let new = if alone { format!("{element} ∷ []") } else { format!("({element} ∷ [])") };
        let lines: Vec<String> = element.split(' ').filter_map(|name| self.line(name)).collect();
        let uses = (!lines.is_empty()).then(|| lines.join("\n"));
        self.add_using("list not empty", (expr.start, expr.end), &new, shown, uses);
    }

    /// The line that the file needs for a constructor, where it uses others of that file only.
    fn line(&self, name: &str) -> Option<String> {
        if self.rules.has(self.source(), name) {
            return None;
        }
        let has = |file: &File| file.constructors.iter().any(|(one, _)| one == name);
        let (_, module) = self.source().uses.iter().find(|(_, module)| self.rules.file_of(module).is_some_and(has))?;
        Some(format!("use {module}.{{{name}}}"))
    }

    /// The nearest constants below and above, and the nearest numbers.
    fn constant(&mut self, expr: &Expr, name: &str, shown: &Shown) {
        let Some(value) = self.rules.value(name) else {
            return;
        };
        let others = self.alternatives(expr, name, &Type::plain("ℕ"));
        let mut known: Vec<(u128, String, Option<String>)> = Vec::new();
        for (other, uses) in others {
            if let Some(other_value) = self.rules.value(&other).filter(|other_value| *other_value != value) {
                known.push((other_value, other, uses));
            }
        }
        known.sort();
        let above = known.iter().find(|(other, ..)| *other > value).cloned();
        let below = known.iter().rev().find(|(other, ..)| *other < value).cloned();
        for (_, other, uses) in [below, above].into_iter().flatten() {
            self.add_using("other constant", (expr.start, expr.end), &other, shown, uses);
        }
        for near in [Some(value + 1), value.checked_sub(1)].into_iter().flatten() {
            self.replace("other number", expr, &near.to_string(), shown);
        }
    }

    /// Other definitions of the same type, the nearest first, with the line that a file needs to use them: those of the
    /// file before this one, and of the files that it uses already.
    fn alternatives(&self, expr: &Expr, name: &str, ty: &Type) -> Vec<(String, Option<String>)> {
        let scope = self.typing.scope(expr);
        let mut found = Vec::new();
        let (mut own, mut order) = (0usize, 0usize);
        for (place, file) in self.rules.files.iter().enumerate() {
            let module = self
                .source()
                .uses
                .iter()
                .find(|(_, module)| self.rules.file_of(module).is_some_and(|used| used.name == file.name));
            for (number, definition) in file.definitions.iter().enumerate() {
                order += 1;
                if definition.name == name {
                    own = order;
                    continue;
                }
                let before = if place == self.file { number < self.place } else { module.is_some() };
                let local = scope.iter().any(|(local, _)| *local == definition.name);
                if definition.ty != *ty || !before || local {
                    continue;
                }
                let used = place == self.file || self.uses(&definition.name);
                let line = module.map(|(_, module)| format!("use {module}.{{{}}}", definition.name));
                if used || !self.rules.has(self.source(), &definition.name) {
                    found.push((order, definition.name.clone(), if used { None } else { line }));
                }
            }
        }
        found.sort_by_key(|(order, ..)| order.abs_diff(own));
        found.into_iter().map(|(_, name, line)| (name, line)).collect()
    }
}

/// The names next to one, the last being next to the first.
pub fn neighbours(names: &[&String], name: &str, most: usize) -> Vec<String> {
    let own = names.iter().position(|one| *one == name).unwrap_or(0);
    let mut near = vec![(own + 1) % names.len(), (own + names.len() - 1) % names.len()];
    near.dedup();
    near.into_iter().filter(|place| *place != own).take(most).map(|place| names[place].clone()).collect()
}
