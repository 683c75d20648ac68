//! The words of the command line, and the changes that may survive.

use crate::rules::{Rules, FILES};
use std::collections::BTreeMap;
use std::fs;
use std::path::{Path, PathBuf};

pub struct Arguments {
    pub folder: Option<PathBuf>,
    pub jobs: usize,
    pub list: bool,
    pub all: bool,
    selected: Vec<(String, Option<String>)>,
}

pub fn arguments() -> Option<Arguments> {
    let jobs = std::thread::available_parallelism().map_or(1, |jobs| jobs.get());
    let mut found = Arguments { folder: None, jobs, list: false, all: false, selected: Vec::new() };
    let mut given = std::env::args().skip(1);
    while let Some(argument) = given.next() {
        match argument.as_str() {
            "--crate" => found.folder = Some(PathBuf::from(given.next()?)),
            "--jobs" => found.jobs = given.next()?.parse().ok().filter(|jobs| (1..=64).contains(jobs))?,
            "--list" => found.list = true,
            "--all" => found.all = true,
            _ if argument.starts_with('-') => return None,
            _ => {
                let (file, definition) = match argument.split_once(':') {
                    Some((file, definition)) => (file, Some(definition.to_string())),
                    None => (argument.as_str(), None),
                };
                found.selected.push((file.trim_end_matches(".antt").to_string(), definition));
            }
        }
    }
    Some(found)
}

impl Arguments {
    pub fn selects(&self, file: &str, definition: &str) -> bool {
        self.selected.is_empty()
            || self
                .selected
                .iter()
                .any(|(name, only)| name == file && only.as_deref().map_or(true, |only| only == definition))
    }

    /// A selection that names nothing.
    pub fn strange(&self, rules: &Rules) -> Option<String> {
        for (name, definition) in &self.selected {
            let Some(file) = rules.file(name) else {
                return Some(format!("no file of definitions: {name} (there are {})", FILES.join(", ")));
            };
            if let Some(definition) = definition {
                if !file.definitions.iter().any(|known| known.name == *definition) {
                    return Some(format!("no definition {definition} in {name}.antt"));
                }
            }
        }
        None
    }
}

/// The changes that may survive, by what they are called, with their reasons.
pub fn allowed(path: &Path) -> Result<BTreeMap<String, String>, String> {
    let text = fs::read_to_string(path).map_err(|error| format!("{}: {error}", path.display()))?;
    let mut found: BTreeMap<String, String> = BTreeMap::new();
    let mut last = None;
    for line in text.lines().filter(|line| !line.starts_with('#') && !line.trim().is_empty()) {
        if !line.starts_with(' ') {
            if found.insert(line.to_string(), String::new()).is_some() {
                return Err(format!("{}: twice: {line}", path.display()));
            }
            last = Some(line.to_string());
            continue;
        }
        match last.as_ref().and_then(|last| found.get_mut(last)) {
            Some(reason) => reason.push_str(line.trim()),
            None => return Err(format!("{}: a reason without a change: {line}", path.display())),
        }
    }
    match found.iter().find(|(_, reason)| reason.is_empty()) {
        Some((change, _)) => Err(format!("{}: no reason: {change}", path.display())),
        None => Ok(found),
    }
}

/// The file and the definition that a change's name begins with.
pub fn place_of(identity: &str) -> (&str, &str) {
    let mut parts = identity.split("  ");
    let file = parts.next().unwrap_or("").trim_end_matches(".antt");
    (file, parts.next().unwrap_or("").split(' ').next().unwrap_or(""))
}
