//! Types, and how they are read.

use crate::text::{Token, Word};

#[derive(Clone, PartialEq, Debug)]
pub enum Type {
    Named(String, Vec<Type>),
    Function(Box<Type>, Box<Type>),
    Unknown(usize),
}

impl Type {
    pub fn plain(name: &str) -> Type {
        Type::Named(name.to_string(), Vec::new())
    }

    pub fn name(&self) -> &str {
        match self {
            Type::Named(name, _) => name,
            _ => "",
        }
    }

    pub fn is_number(&self) -> bool {
        self.name() == "ℕ"
    }

    /// No part of it is unknown.
    pub fn known(&self) -> bool {
        match self {
            Type::Named(_, parts) => parts.iter().all(Type::known),
            Type::Function(from, to) => from.known() && to.known(),
            Type::Unknown(_) => false,
        }
    }
}

/// Reads a type; single small letters are unknowns 0 to 25.
struct TypeReader<'a> {
    tokens: &'a [Token],
    place: usize,
}

impl TypeReader<'_> {
    fn peek(&self) -> &str {
        self.tokens.get(self.place).map_or("", |token| &token.text)
    }

    fn arrows(&mut self) -> Option<Type> {
        let from = self.product()?;
        if self.peek() != "→" {
            return Some(from);
        }
        self.place += 1;
        Some(Type::Function(Box::new(from), Box::new(self.arrows()?)))
    }

    fn product(&mut self) -> Option<Type> {
        let left = self.application()?;
        if self.peek() != "×" {
            return Some(left);
        }
        self.place += 1;
        let right = self.product()?;
        Some(Type::Named("×".to_string(), vec![left, right]))
    }

    fn application(&mut self) -> Option<Type> {
        let head = self.atom()?;
        let mut parts = Vec::new();
        while let Some(part) = self.atom() {
            parts.push(part);
        }
        match head {
            Type::Named(name, _) if !parts.is_empty() => Some(Type::Named(name, parts)),
            _ => Some(head),
        }
    }

    fn atom(&mut self) -> Option<Type> {
        let token = self.tokens.get(self.place)?;
        self.place += 1;
        match (token.word, token.text.as_str()) {
            (_, "(") => {
                let inner = self.arrows()?;
                self.place += 1;
                Some(inner)
            }
            (Word::Name | Word::Number, text) => match text.as_bytes() {
                [letter @ b'a'..=b'z'] => Some(Type::Unknown((letter - b'a') as usize)),
                _ => Some(Type::plain(text)),
            },
            _ => {
                self.place -= 1;
                None
            }
        }
    }
}

pub fn read_type(tokens: &[Token]) -> Option<Type> {
    let mut reader = TypeReader { tokens, place: 0 };
    let found = reader.arrows()?;
    (reader.place == tokens.len()).then_some(found)
}

/// What a function takes, and at the end what it gives.
pub fn arrows(ty: &Type) -> Vec<&Type> {
    match ty {
        Type::Function(from, to) => std::iter::once(&**from).chain(arrows(to)).collect(),
        _ => vec![ty],
    }
}

pub fn plain_type(ty: &Type) -> String {
    match ty {
        Type::Named(name, parts) => {
            parts.iter().fold(name.clone(), |text, part| format!("{text} {}", plain_type(part)))
        }
        _ => String::new(),
    }
}
