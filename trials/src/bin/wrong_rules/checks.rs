//! Copies of the rules with changes in them, and what a check says of each.

use crate::files::without_functions;
use crate::rules::{FILES, TABLE};
use std::collections::{BTreeMap, HashSet};
use std::fs;
use std::path::{Path, PathBuf};
use std::process::{Command, Output, Stdio};

/// A check that takes longer is given up.
const SECONDS: &str = "240";

#[derive(Clone)]
pub enum Verdict {
    Survives,
    Refused(String),
    NoDefinition(String),
    NoAnswer(String),
}

impl Verdict {
    pub fn refuses(&self) -> bool {
        matches!(self, Verdict::Refused(_) | Verdict::NoDefinition(_))
    }
}

/// Where modules stand.
const FOLDERS: [&str; 2] = ["specs", "proofs"];

/// The modules of specs/, as specs/Lib.antt has them, and the table's of proofs/, as `specs.Moves` with their texts.
pub struct Specs {
    modules: Vec<(String, String)>,
    library: String,
}

/// How one module names another.
fn named(module: &str) -> String {
    format!("Rattle.rules.{module}.")
}

/// The file that a module is.
fn file(folder: &Path, module: &str) -> PathBuf {
    folder.join(format!("{}.antt", module.replace('.', "/")))
}

impl Specs {
    pub fn read(folder: &Path) -> Result<Specs, String> {
        let read = |path: PathBuf| fs::read_to_string(&path).map_err(|error| format!("{}: {error}", path.display()));
        let all = read(folder.join("specs/Lib.antt"))?;
        let names = all.lines().filter_map(|line| line.strip_prefix("pub mod "));
        let specs = names.map(|name| format!("specs.{name}"));
        let table = TABLE.iter().map(|name| format!("proofs.{name}"));
        let modules: Result<Vec<(String, String)>, String> =
            specs.chain(table).map(|name| Ok((name.clone(), read(file(folder, &name))?))).collect();
        Ok(Specs { modules: modules?, library: without_functions(&read(folder.join("src/lib.rt"))?) })
    }

    /// A module and those that use it, at once or through others.
    fn users(&self, module: &str) -> HashSet<&str> {
        let mut found: HashSet<&str> =
            self.modules.iter().map(|(name, _)| name.as_str()).filter(|n| *n == module).collect();
        loop {
            let uses = |text: &str| found.iter().any(|name| text.contains(&named(name)));
            let more: Vec<&str> = self
                .modules
                .iter()
                .filter(|(name, text)| !found.contains(name.as_str()) && uses(text))
                .map(|(name, _)| name.as_str())
                .collect();
            if more.is_empty() {
                return found;
            }
            found.extend(more);
        }
    }

    /// The files for some changes together: what a change does not touch is there once, and the rest once for each
    /// change, under a name of its own. A check begins slowly, so that this is far quicker than one at a time.
    fn files(&self, changed: &[(&str, String)]) -> BTreeMap<String, String> {
        let mut files = BTreeMap::new();
        for (place, (module, new)) in changed.iter().enumerate() {
            let module = format!("specs.{module}");
            let users = self.users(&module);
            for (name, text) in self.modules.iter().filter(|(name, _)| users.contains(name.as_str())) {
                let mut text = if *name == module { new.clone() } else { text.clone() };
                for user in &users {
                    text = text.replace(&named(user), &named(&copy(user, place)));
                }
                files.insert(copy(name, place), text);
            }
        }
        // Those that the copies use come after them in turn, until nothing is missing.
        loop {
            let used =
                |name: &str| changed.is_empty() || files.values().any(|text: &String| text.contains(&named(name)));
            let missing = self.modules.iter().find(|(name, _)| !files.contains_key(name) && used(name));
            match missing {
                Some((name, text)) => files.insert(name.clone(), text.clone()),
                None => return files,
            };
        }
    }
}

/// The name of a module in the copy for a change.
fn copy(module: &str, place: usize) -> String {
    format!("{module}Changed{place}")
}

/// A folder that a worker checks in.
pub struct Bench<'a> {
    pub folder: PathBuf,
    pub specs: &'a Specs,
}

impl Bench<'_> {
    fn write(&self, changed: &[(&str, String)]) -> std::io::Result<()> {
        let source = self.folder.join("src");
        fs::create_dir_all(&source)?;
        fs::write(self.folder.with_file_name("crates.txt"), "rules:\n")?;
        fs::write(source.join("lib.rt"), &self.specs.library)?;
        let files = self.specs.files(changed);
        for part in FOLDERS {
            let folder = self.folder.join(part);
            if folder.exists() {
                fs::remove_dir_all(&folder)?;
            }
            fs::create_dir_all(&folder)?;
            let names = files.keys().filter_map(|module| module.strip_prefix(part)?.strip_prefix('.'));
            let all: String = names.map(|name| format!("pub mod {name}\n")).collect();
            fs::write(folder.join("Lib.antt"), all)?;
        }
        for (module, text) in files {
            fs::write(file(&self.folder, &module), text)?;
        }
        Ok(())
    }

    /// The check's number is left in a file while it runs, for the one who ends it.
    fn run(&self) -> std::io::Result<Output> {
        let room = self.folder.with_file_name("room");
        fs::create_dir_all(&room)?;
        let child = Command::new("timeout")
            .args(["-k", "5", SECONDS, "rt", "check", "--jobs", "1"])
            .current_dir(&self.folder)
            .env("TMPDIR", &room)
            .stdin(Stdio::null())
            .stdout(Stdio::piped())
            .stderr(Stdio::piped())
            .spawn()?;
        let number = self.folder.with_file_name("pid");
        fs::write(&number, child.id().to_string())?;
        let output = child.wait_with_output();
        fs::remove_file(&number)?;
        output
    }

    /// What becomes of each change, where all are checked together.
    fn together(&self, changed: &[(&str, String)]) -> std::io::Result<Vec<Verdict>> {
        self.write(changed)?;
        let output = self.run()?;
        let mut said = String::from_utf8_lossy(&output.stdout).into_owned();
        said.push_str(&String::from_utf8_lossy(&output.stderr));
        let all = |verdict: Verdict| Ok(vec![verdict; changed.len().max(1)]);
        if matches!(output.status.code(), Some(124 | 137)) {
            return all(Verdict::NoAnswer(format!("no answer in {SECONDS} s")));
        }
        if output.status.success() && said.contains("logic=proved") {
            return all(Verdict::Survives);
        }
        let errors: Vec<&str> = said
            .lines()
            .filter_map(|line| FOLDERS.iter().find_map(|part| line.strip_prefix(&format!("./{part}/"))))
            .filter(|line| line.contains(": error: "))
            .collect();
        match errors.first() {
            None => {
                let last = said.lines().last().unwrap_or("");
                return all(Verdict::NoAnswer(format!("no answer, {}: {last}", output.status)));
            }
            Some(error) if changed.is_empty() => return all(Verdict::Refused(error.to_string())),
            Some(_) => {}
        }
        Ok((0..changed.len()).map(|place| verdict(&errors, place)).collect())
    }

    /// What becomes of each change. One that is not refused together with others is tried alone.
    pub fn check(&self, changed: &[(&str, String)]) -> std::io::Result<Vec<Verdict>> {
        let mut verdicts = self.together(changed)?;
        if changed.len() > 1 {
            for (place, verdict) in verdicts.iter_mut().enumerate().filter(|(_, verdict)| !verdict.refuses()) {
                *verdict = self.together(&changed[place..=place])?.remove(0);
            }
        }
        Ok(verdicts)
    }

    pub fn check_one(&self, module: &str, text: String) -> std::io::Result<Verdict> {
        Ok(self.check(&[(module, text)])?.remove(0))
    }
}

/// An error in a copy of a file of definitions means that the change is none.
fn verdict(errors: &[&str], place: usize) -> Verdict {
    let mark = format!("{}.antt", copy("", place));
    let own = || errors.iter().filter_map(|error| Some((error.split_once(':')?.0.strip_suffix(&mark)?, *error)));
    let defined = own().find(|(module, _)| FILES.contains(module));
    let plainly = |error: &str| error.replace(&copy("", place), "");
    match (defined, own().next()) {
        (Some((_, error)), _) => Verdict::NoDefinition(plainly(error)),
        (None, Some((_, error))) => Verdict::Refused(plainly(error)),
        (None, None) => Verdict::Survives,
    }
}
