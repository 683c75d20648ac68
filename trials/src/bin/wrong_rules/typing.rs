//! The types of what stands in a clause.

use crate::expressions::{Expr, Node};
use crate::files::{Clause, Definition, File};
use crate::rules::{Is, Rules};
use crate::types::Type;
use std::collections::HashMap;

pub struct Typing<'a> {
    rules: &'a Rules,
    file: &'a File,
    /// By expression.
    types: Vec<Option<Type>>,
    solved: Vec<Option<Type>>,
    pub locals: Vec<(String, Type)>,
    /// The names that stand before each expression, by how many there are.
    scopes: Vec<usize>,
    /// A name whose type is not known.
    pub strange: Option<String>,
}

impl<'a> Typing<'a> {
    pub fn of(rules: &'a Rules, file: &'a File, definition: &Definition, clause: &Clause) -> Typing<'a> {
        let mut typing = Typing {
            rules,
            file,
            types: vec![None; clause.nodes],
            solved: Vec::new(),
            locals: Vec::new(),
            scopes: vec![0; clause.nodes],
            strange: None,
        };
        let mut rest = definition.ty.clone();
        for pattern in &clause.patterns {
            let (from, to) = typing.split(&rest);
            typing.pattern(pattern, from);
            rest = to;
        }
        typing.infer(&clause.body, Some(rest));
        for place in 0..typing.types.len() {
            typing.types[place] = typing.types[place].clone().map(|ty| typing.resolved(&ty));
        }
        typing
    }

    fn unknown(&mut self) -> Type {
        self.solved.push(None);
        Type::Unknown(self.solved.len() - 1)
    }

    /// A type of the library with unknowns of its own.
    fn instance(&mut self, ty: &Type) -> Type {
        fn walk(typing: &mut Typing, ty: &Type, seen: &mut HashMap<usize, Type>) -> Type {
            match ty {
                Type::Named(name, parts) => {
                    Type::Named(name.clone(), parts.iter().map(|part| walk(typing, part, seen)).collect())
                }
                Type::Function(from, to) => {
                    Type::Function(Box::new(walk(typing, from, seen)), Box::new(walk(typing, to, seen)))
                }
                Type::Unknown(letter) => seen.entry(*letter).or_insert_with(|| typing.unknown()).clone(),
            }
        }
        walk(self, ty, &mut HashMap::new())
    }

    pub fn resolved(&self, ty: &Type) -> Type {
        match ty {
            Type::Unknown(place) => match &self.solved[*place] {
                Some(found) => self.resolved(found),
                None => ty.clone(),
            },
            Type::Named(name, parts) => {
                Type::Named(name.clone(), parts.iter().map(|part| self.resolved(part)).collect())
            }
            Type::Function(from, to) => Type::Function(Box::new(self.resolved(from)), Box::new(self.resolved(to))),
        }
    }

    /// Takes two types to be the same. Where they cannot be, nothing is said: the prover tells.
    fn same(&mut self, one: &Type, other: &Type) {
        match (self.resolved(one), self.resolved(other)) {
            (Type::Unknown(a), Type::Unknown(b)) if a == b => {}
            (Type::Unknown(place), ty) | (ty, Type::Unknown(place)) => self.solved[place] = Some(ty),
            (Type::Named(_, ones), Type::Named(_, others)) => {
                for (one, other) in ones.iter().zip(&others) {
                    self.same(one, other);
                }
            }
            (Type::Function(from, to), Type::Function(other_from, other_to)) => {
                self.same(&from, &other_from);
                self.same(&to, &other_to);
            }
            _ => {}
        }
    }

    fn split(&mut self, ty: &Type) -> (Type, Type) {
        match self.resolved(ty) {
            Type::Function(from, to) => (*from, *to),
            other => {
                let (from, to) = (self.unknown(), self.unknown());
                self.same(&other, &Type::Function(Box::new(from.clone()), Box::new(to.clone())));
                (from, to)
            }
        }
    }

    fn pattern(&mut self, pattern: &Expr, ty: Type) {
        match &pattern.node {
            Node::Group(inner) => self.pattern(inner, ty),
            Node::Name(name) => match self.rules.lookup(self.file, name) {
                Some((Is::Constructor, made)) => {
                    let made = self.instance(&made);
                    self.same(&made, &ty);
                }
                _ => self.locals.push((name.clone(), ty)),
            },
            Node::Call(head, arguments) => {
                let found = self.rules.lookup(self.file, head.head());
                let mut rest = match found {
                    Some((_, made)) => self.instance(&made),
                    None => self.unknown(),
                };
                let mut parts = Vec::new();
                for argument in arguments {
                    let (from, to) = self.split(&rest);
                    parts.push((argument, from));
                    rest = to;
                }
                self.same(&rest, &ty);
                for (argument, from) in parts {
                    self.pattern(argument, from);
                }
            }
            Node::Operator(_, _, left, right) => {
                let element = self.unknown();
                let list = Type::Named("List".to_string(), vec![element.clone()]);
                self.same(&list, &ty);
                self.pattern(left, element);
                self.pattern(right, list);
            }
            _ => {}
        }
    }

    fn infer(&mut self, expr: &Expr, wanted: Option<Type>) -> Type {
        self.scopes[expr.id] = self.locals.len();
        let found = self.infer_node(expr, wanted.as_ref());
        if let Some(wanted) = wanted {
            self.same(&wanted, &found);
        }
        self.types[expr.id] = Some(found.clone());
        found
    }

    fn infer_node(&mut self, expr: &Expr, wanted: Option<&Type>) -> Type {
        match &expr.node {
            Node::Number => Type::plain("ℕ"),
            Node::Group(inner) => self.infer(inner, wanted.cloned()),
            Node::Name(name) => {
                if let Some((_, ty)) = self.locals.iter().rev().find(|(local, _)| local == name) {
                    return ty.clone();
                }
                match self.rules.lookup(self.file, name) {
                    Some((_, ty)) => self.instance(&ty),
                    None => {
                        self.strange = Some(name.clone());
                        self.unknown()
                    }
                }
            }
            Node::Call(head, arguments) => {
                let mut rest = self.infer(head, None);
                for argument in arguments {
                    let (from, to) = self.split(&rest);
                    self.infer(argument, Some(from));
                    rest = to;
                }
                rest
            }
            Node::Field(inner, field) => {
                let ty = self.infer(inner, None);
                let ty = self.resolved(&ty);
                self.field(&ty, field).unwrap_or_else(|| self.unknown())
            }
            Node::Operator(operator, _, left, right) => self.infer_operator(operator, left, right),
            Node::Record(fields) => self.infer_record(fields),
            Node::Let(name, value, body) => {
                let ty = self.infer(value, None);
                self.locals.push((name.clone(), ty));
                self.infer(body, wanted.cloned())
            }
            Node::Tuple(parts) => {
                let parts = parts.iter().map(|part| self.infer(part, None)).collect();
                Type::Named("×".to_string(), parts)
            }
        }
    }

    fn infer_operator(&mut self, operator: &str, left: &Expr, right: &Expr) -> Type {
        let (one, other) = match operator {
            "&&" | "||" => (Type::plain("Bool"), Type::plain("Bool")),
            "∷" | "++" => {
                let element = self.unknown();
                let list = Type::Named("List".to_string(), vec![element.clone()]);
                (if operator == "∷" { element } else { list.clone() }, list)
            }
            _ => (Type::plain("ℕ"), Type::plain("ℕ")),
        };
        self.infer(left, Some(one));
        self.infer(right, Some(other.clone()));
        other
    }

    fn infer_record(&mut self, fields: &[(String, Expr)]) -> Type {
        let rules = self.rules;
        let fits = |known: &Vec<(String, Type)>| {
            known.len() == fields.len() && fields.iter().all(|(name, _)| known.iter().any(|(field, _)| field == name))
        };
        let found = rules.records.iter().find(|(_, known)| fits(known));
        for (name, value) in fields {
            let ty = found.and_then(|(_, known)| known.iter().find(|(field, _)| field == name));
            self.infer(value, ty.map(|(_, ty)| ty.clone()));
        }
        match found {
            Some((name, _)) => Type::plain(name),
            None => self.unknown(),
        }
    }

    pub fn field(&self, ty: &Type, field: &str) -> Option<Type> {
        if let (Type::Named(name, parts), Ok(place)) = (ty, field.parse::<usize>()) {
            return (name == "×").then(|| parts.get(place).cloned()).flatten();
        }
        let (_, found) = self.rules.records.get(ty.name())?.iter().find(|(name, _)| name == field)?;
        Some(found.clone())
    }

    /// The type of an expression, where all of it is known.
    pub fn ty(&self, expr: &Expr) -> Option<&Type> {
        self.types[expr.id].as_ref().filter(|ty| ty.known())
    }

    /// The names with their types that stand where the expression does.
    pub fn scope(&self, expr: &Expr) -> Vec<(&str, Type)> {
        let mut found: Vec<(&str, Type)> = Vec::new();
        for (name, ty) in &self.locals[..self.scopes[expr.id]] {
            found.retain(|(other, _)| other != name);
            found.push((name, self.resolved(ty)));
        }
        found
    }
}
