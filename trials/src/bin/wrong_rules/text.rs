//! The words of a text, and texts that are shown.

#[derive(Clone, Copy, PartialEq, Debug)]
pub enum Word {
    Name,
    Number,
    Field,
    Operator,
    Mark,
}

#[derive(Clone, Debug)]
pub struct Token {
    pub word: Word,
    pub text: String,
    pub start: usize,
    pub end: usize,
}

fn word_of(word: &str) -> Word {
    let mut chars = word.chars();
    let first = chars.next().unwrap_or(' ');
    match word {
        "∷" | "++" | "&&" | "||" | "+" | "-" | "*" | "/" | "%" | "^" => Word::Operator,
        "=" | ":" | "→" | "×" | "λ" => Word::Mark,
        _ if first.is_ascii_digit() => Word::Number,
        _ if first == '.' && chars.next().is_some() => Word::Field,
        _ => Word::Name,
    }
}

/// `r.job.held` is a name and two fields; a variant is one name, as `Scan.Idle`.
fn parts(word: &str) -> Vec<&str> {
    let dots = word.match_indices('.').map(|(place, _)| place);
    let whole = word.starts_with(char::is_uppercase);
    let mut cuts: Vec<usize> = dots.filter(|place| *place > 0 && !whole).collect();
    cuts.insert(0, 0);
    cuts.push(word.len());
    cuts.windows(2).map(|pair| &word[pair[0]..pair[1]]).collect()
}

/// The words of a text with their places; comments are left out.
pub fn tokens(text: &str, base: usize) -> Vec<Token> {
    let mut found = Vec::new();
    let mut rest = text;
    while let Some(first) = rest.chars().next() {
        let start = base + text.len() - rest.len();
        let length = if first.is_whitespace() || "(){};,".contains(first) {
            first.len_utf8()
        } else {
            rest.find(|c: char| c.is_whitespace() || "(){};,".contains(c)).unwrap_or(rest.len())
        };
        let word = &rest[..length];
        if word.starts_with("--") {
            rest = &rest[rest.find('\n').unwrap_or(rest.len())..];
            continue;
        }
        if !first.is_whitespace() {
            let mut start = start;
            for part in parts(word) {
                let word_kind = if "(){};,".contains(first) { Word::Mark } else { word_of(part) };
                found.push(Token { word: word_kind, text: part.to_string(), start, end: start + part.len() });
                start += part.len();
            }
        }
        rest = &rest[length..];
    }
    found
}

/// A text on one line, with single spaces.
pub fn plain(text: &str) -> String {
    let mut line = String::new();
    let mut end = 0;
    for token in tokens(text, 0) {
        if !line.is_empty() && token.start > end {
            line.push(' ');
        }
        line.push_str(&token.text);
        end = token.end;
    }
    line
}

pub fn number(text: &str) -> Option<u128> {
    match text.strip_prefix("0x") {
        Some(digits) => u128::from_str_radix(digits, 16).ok(),
        None => text.parse().ok(),
    }
}

/// Says what a smaller change says too: `a && a` is a, `a + 0` is a.
pub fn repeats(text: &str) -> bool {
    match text.split(' ').collect::<Vec<_>>()[..] {
        [one, "&&" | "||", other] => one == other,
        [.., "+" | "-", "0"] => true,
        _ => false,
    }
}

/// Two texts, each cut to what differs and some words round it.
pub fn cut(old: &str, new: &str) -> (String, String) {
    const ROUND: usize = 6;
    const MIDDLE: usize = 16;
    let (old, new): (Vec<&str>, Vec<&str>) = (old.split(' ').collect(), new.split(' ').collect());
    let least = old.len().min(new.len());
    let before = (0..least).take_while(|&place| old[place] == new[place]).count();
    let after =
        (0..least - before).take_while(|&place| old[old.len() - 1 - place] == new[new.len() - 1 - place]).count();
    let shorten = |words: &[&str]| {
        let from = before.saturating_sub(ROUND);
        let to = words.len() - after.saturating_sub(ROUND);
        let mut kept: Vec<&str> = words[from..to].to_vec();
        if kept.len() > MIDDLE + 2 * ROUND {
            kept.splice(MIDDLE..kept.len() - ROUND, ["…"]);
        }
        let mut text = kept.join(" ");
        if from > 0 {
            text = format!("…{text}");
        }
        if to < words.len() {
            text.push('…');
        }
        text
    };
    (shorten(&old), shorten(&new))
}
