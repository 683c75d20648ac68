//! Expressions and patterns, and how they are read.

use crate::text::{plain, Token, Word};
use std::collections::{HashMap, HashSet};

#[derive(Clone, Debug)]
pub enum Node {
    Name(String),
    Number,
    Call(Box<Expr>, Vec<Expr>),
    Field(Box<Expr>, String),
    /// The operator, where it stands, and both sides.
    Operator(String, usize, Box<Expr>, Box<Expr>),
    Record(Vec<(String, Expr)>),
    Let(String, Box<Expr>, Box<Expr>),
    Group(Box<Expr>),
    Tuple(Vec<Expr>),
}

#[derive(Clone, Debug)]
pub struct Expr {
    pub id: usize,
    pub start: usize,
    pub end: usize,
    pub node: Node,
}

impl Expr {
    pub fn head(&self) -> &str {
        match &self.node {
            Node::Name(name) => name,
            Node::Call(head, _) => head.head(),
            _ => "",
        }
    }

    /// Without the parentheses round it.
    pub fn bare(&self) -> &Expr {
        match &self.node {
            Node::Group(inner) => inner.bare(),
            _ => self,
        }
    }

    pub fn children(&self) -> Vec<&Expr> {
        match &self.node {
            Node::Name(_) | Node::Number => Vec::new(),
            Node::Call(head, arguments) => std::iter::once(&**head).chain(arguments).collect(),
            Node::Field(inner, _) | Node::Group(inner) => vec![inner],
            Node::Operator(_, _, left, right) | Node::Let(_, left, right) => vec![left, right],
            Node::Record(fields) => fields.iter().map(|(_, value)| value).collect(),
            Node::Tuple(parts) => parts.iter().collect(),
        }
    }

    pub fn lets(&self, text: &str, into: &mut HashMap<String, String>) {
        if let Node::Let(name, value, _) = &self.node {
            into.insert(name.clone(), plain(&text[value.start..value.end]));
        }
        for child in self.children() {
            child.lets(text, into);
        }
    }

    /// The names in it.
    pub fn names(&self, into: &mut HashSet<String>) {
        if let Node::Name(name) = &self.node {
            into.insert(name.clone());
        }
        for child in self.children() {
            child.names(into);
        }
    }
}

/// How tightly an operator binds, and whether it groups to the right.
fn binding(operator: &str) -> (u8, bool) {
    match operator {
        "||" => (1, true),
        "&&" => (2, true),
        "∷" | "++" => (3, true),
        "+" | "-" => (4, false),
        "*" | "/" | "%" => (5, false),
        _ => (6, true),
    }
}

pub struct Parser<'a> {
    tokens: &'a [Token],
    pub place: usize,
    pub next: usize,
}

impl Parser<'_> {
    pub fn new(tokens: &[Token]) -> Parser<'_> {
        Parser { tokens, place: 0, next: 0 }
    }

    fn peek(&self) -> &str {
        self.tokens.get(self.place).map_or("", |token| &token.text)
    }

    fn word(&self) -> Option<Word> {
        self.tokens.get(self.place).map(|token| token.word)
    }

    fn expect(&mut self, text: &str) -> Option<()> {
        (self.peek() == text).then(|| self.place += 1)
    }

    fn expr(&mut self, start: usize, end: usize, node: Node) -> Expr {
        self.next += 1;
        Expr { id: self.next - 1, start, end, node }
    }

    pub fn whole(&mut self) -> Option<Expr> {
        let start = self.tokens.get(self.place)?.start;
        if self.peek() != "let" {
            return self.operators(0);
        }
        self.place += 1;
        let name = self.tokens.get(self.place)?.text.clone();
        self.place += 1;
        self.expect("=")?;
        let value = self.whole()?;
        self.expect("in")?;
        let body = self.whole()?;
        let end = body.end;
        Some(self.expr(start, end, Node::Let(name, Box::new(value), Box::new(body))))
    }

    fn operators(&mut self, least: u8) -> Option<Expr> {
        let mut left = self.call()?;
        while self.word() == Some(Word::Operator) {
            let operator = self.peek().to_string();
            let (tight, rightward) = binding(&operator);
            if tight < least {
                break;
            }
            let at = self.tokens[self.place].start;
            self.place += 1;
            let right = self.operators(if rightward { tight } else { tight + 1 })?;
            let (start, end) = (left.start, right.end);
            left = self.expr(start, end, Node::Operator(operator, at, Box::new(left), Box::new(right)));
        }
        Some(left)
    }

    fn call(&mut self) -> Option<Expr> {
        let head = self.atom()?;
        let mut arguments = Vec::new();
        while let Some(argument) = self.atom() {
            arguments.push(argument);
        }
        let Some(last) = arguments.last() else {
            return Some(head);
        };
        let (start, end) = (head.start, last.end);
        Some(self.expr(start, end, Node::Call(Box::new(head), arguments)))
    }

    /// A field is taken of what it touches.
    pub fn atom(&mut self) -> Option<Expr> {
        let mut found = self.alone()?;
        loop {
            let touches = |token: &&Token| token.word == Word::Field && token.start == found.end;
            let Some(token) = self.tokens.get(self.place).filter(touches) else {
                return Some(found);
            };
            let (start, end, field) = (found.start, token.end, token.text[1..].to_string());
            self.place += 1;
            found = self.expr(start, end, Node::Field(Box::new(found), field));
        }
    }

    fn alone(&mut self) -> Option<Expr> {
        let token = self.tokens.get(self.place)?.clone();
        let (start, end) = (token.start, token.end);
        match (token.word, token.text.as_str()) {
            (_, "(") => self.group(start),
            (_, "record") => self.record(start),
            (_, "let" | "in") => None,
            (Word::Name, name) => {
                self.place += 1;
                Some(self.expr(start, end, Node::Name(name.to_string())))
            }
            (Word::Number, _) => {
                self.place += 1;
                Some(self.expr(start, end, Node::Number))
            }
            _ => None,
        }
    }

    fn group(&mut self, start: usize) -> Option<Expr> {
        self.place += 1;
        let mut parts = vec![self.whole()?];
        while self.peek() == "," {
            self.place += 1;
            parts.push(self.whole()?);
        }
        let end = self.tokens.get(self.place)?.end;
        self.expect(")")?;
        let node = if parts.len() > 1 { Node::Tuple(parts) } else { Node::Group(Box::new(parts.remove(0))) };
        Some(self.expr(start, end, node))
    }

    fn record(&mut self, start: usize) -> Option<Expr> {
        self.place += 1;
        self.expect("{")?;
        let mut fields = Vec::new();
        while self.peek() != "}" {
            let name = self.tokens.get(self.place)?.text.clone();
            self.place += 1;
            self.expect("=")?;
            fields.push((name, self.whole()?));
            if self.peek() == ";" {
                self.place += 1;
            }
        }
        let end = self.tokens[self.place].end;
        self.place += 1;
        Some(self.expr(start, end, Node::Record(fields)))
    }
}
