//! Changes of a record or of a field taken of one.

use super::maker::{Maker, Shown};
use super::names::neighbours;
use crate::expressions::{Expr, Node};
use crate::text::number;
use crate::types::Type;

impl Maker<'_> {
    pub fn field(&mut self, expr: &Expr, inner: &Expr, field: &str, shown: &Shown) {
        let Some(ty) = self.ty(inner) else {
            return;
        };
        let Some(fields) = self.rules.records.get(ty.name()) else {
            return;
        };
        let own = fields.iter().find(|(name, _)| name == field).map(|(_, ty)| ty);
        let same: Vec<&String> = fields.iter().filter(|(_, ty)| Some(ty) == own).map(|(name, _)| name).collect();
        // A field that is kept is also reset and swapped with each other one.
        for other in neighbours(&same, field, if shown.kept { 1 } else { 2 }) {
            self.add("other field", (inner.end, expr.end), &format!(".{other}"), shown);
        }
        self.other_part(expr, inner, field, shown);
        self.whole_for_part(expr, shown);
        if let Node::Call(_, arguments) = &inner.bare().node {
            self.dropped(expr, arguments, shown);
        }
    }

    /// The field of the same name and type in another part of the record.
    fn other_part(&mut self, expr: &Expr, inner: &Expr, field: &str, shown: &Shown) {
        let Node::Field(whole, part) = &inner.node else {
            return;
        };
        let (Some(ty), Some(own)) = (self.ty(whole), self.ty(expr)) else {
            return;
        };
        let rules = self.rules;
        for (other, ty) in rules.records.get(ty.name()).into_iter().flatten() {
            let found = self.typing.field(ty, field);
            if other != part && found == Some(own.clone()) && !own.is_number() {
                self.add("other field", (whole.end, expr.end), &format!(".{other}.{field}"), shown);
            }
        }
    }

    /// For a part of something given, what is given of the same type.
    fn whole_for_part(&mut self, expr: &Expr, shown: &Shown) {
        let Some(ty) = self.ty(expr).filter(|ty| self.rules.records.contains_key(ty.name())) else {
            return;
        };
        let text = self.text(expr);
        let others = self.paths(expr, ty.name(), 0);
        if let Some(other) = others.into_iter().find(|other| self.lets.get(other) != Some(&text)) {
            self.replace("other variable", expr, &other, shown);
        }
    }

    pub fn record(&mut self, expr: &Expr, fields: &[(String, Expr)]) {
        let Some(ty) = self.ty(expr) else {
            return;
        };
        for (place, one) in fields.iter().enumerate() {
            for other in &fields[place + 1..] {
                self.fields_swapped(one, other);
            }
        }
        let old = self.old(expr, ty.name());
        for (name, value) in fields {
            let shown = Shown { label: format!("{name} = "), ..Shown::of(value) };
            if let Some(old) = &old {
                self.replace("field kept", value, &format!("{old}.{name}"), &shown);
            }
            if let Some(reset) = self.reset(ty.name(), name, value) {
                self.replace("field reset", value, &reset, &shown);
            }
        }
    }

    fn fields_swapped(&mut self, (name, one): &(String, Expr), (other_name, other): &(String, Expr)) {
        let (text, other_text) = (self.text(one), self.text(other));
        if self.ty(one).is_none() || self.ty(one) != self.ty(other) || text == other_text {
            return;
        }
        let between = &self.source().text[one.end..other.start];
        let new = [&other_text, between, &text].concat();
        let shown =
            format!("{name} = {text}; {other_name} = {other_text} → {name} = {other_text}; {other_name} = {text}");
        self.push("fields swapped", (one.start, other.end), &new, None, &shown);
    }

    /// A record of this type that the clause is given, or that is a part of one.
    fn old(&self, expr: &Expr, ty: &str) -> Option<String> {
        (0..3).find_map(|depth| self.paths(expr, ty, depth).into_iter().next())
    }

    /// Values of a type that stand so deep in what the clause is given.
    pub fn paths(&self, expr: &Expr, ty: &str, depth: usize) -> Vec<String> {
        let mut paths: Vec<(String, Type)> =
            self.typing.scope(expr).into_iter().map(|(name, ty)| (name.to_string(), ty)).collect();
        for _ in 0..depth {
            let mut deeper = Vec::new();
            for (path, ty) in &paths {
                let fields = self.rules.records.get(ty.name()).into_iter().flatten();
                deeper.extend(fields.map(|(name, ty)| (format!("{path}.{name}"), ty.clone())));
            }
            paths = deeper;
        }
        paths.into_iter().filter(|(_, found)| found.name() == ty).map(|(path, _)| path).collect()
    }

    /// The fresh value of a field, where the one that stands there is not the same.
    fn reset(&self, ty: &str, field: &str, value: &Expr) -> Option<String> {
        let text = self.text(value);
        let parts = self.rules.records.get("Record")?;
        if ty == "Record" {
            let reset = format!("fresh.{field}");
            return (self.uses("fresh") && text != reset).then_some(reset);
        }
        let Some((part, _)) = parts.iter().find(|(_, part)| part.name() == ty) else {
            let number = self.ty(value).is_some_and(|ty| ty.is_number());
            return (number && text != "0").then(|| "0".to_string());
        };
        let path = format!("fresh.{part}.{field}");
        let reset = self.rules.fresh(part, field);
        if text == path || Some(&text) == reset.as_ref() {
            return None;
        }
        match reset.filter(|reset| number(reset).is_some() || self.rules.has(self.source(), reset)) {
            Some(reset) => Some(reset),
            None => self.uses("fresh").then_some(path),
        }
    }
}
