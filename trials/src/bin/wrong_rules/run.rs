//! The run: every change is tried, and the survivors are held to those that may survive.

use crate::arguments::{allowed, place_of, Arguments};
use crate::changes::{changes, Change};
use crate::checks::{Bench, Specs, Verdict};
use crate::rules::{Rules, FILES};
use std::collections::BTreeMap;
use std::path::PathBuf;
use std::sync::atomic::{AtomicUsize, Ordering};
use std::sync::Mutex;
use std::time::Instant;

/// So many changes are checked together.
const TOGETHER: usize = 8;

fn print_list(changes: &[&Change]) {
    let mut kinds: BTreeMap<&str, usize> = BTreeMap::new();
    let mut files: BTreeMap<&str, usize> = BTreeMap::new();
    for change in changes {
        println!("{}", change.identity);
        *kinds.entry(change.kind).or_default() += 1;
        *files.entry(FILES[change.file]).or_default() += 1;
    }
    println!();
    for (kind, count) in kinds.into_iter().chain(files) {
        println!("{count:>6}  {kind}");
    }
    println!("{:>6}  changes", changes.len());
}

#[derive(Default)]
struct Results {
    tried: usize,
    refused: usize,
    undefined: usize,
    silent: usize,
    survivors: Vec<String>,
    broken: Option<String>,
}

impl Results {
    fn note(&mut self, change: &Change, verdict: &Verdict, all: bool) {
        self.tried += 1;
        let (word, error) = match verdict {
            Verdict::Refused(error) => {
                self.refused += 1;
                ("refused", error.as_str())
            }
            Verdict::NoDefinition(error) => {
                self.undefined += 1;
                ("no definition", error.as_str())
            }
            Verdict::Survives => ("survives", ""),
            Verdict::NoAnswer(what) => {
                self.silent += 1;
                ("no answer", what.as_str())
            }
        };
        if !verdict.refuses() {
            self.survivors.push(change.identity.clone());
        }
        if !verdict.refuses() || all {
            println!("{word:<13}  {}", change.identity);
            if !error.is_empty() {
                println!("               ({})", error.chars().take(200).collect::<String>());
            }
        }
        if self.tried % 200 == 0 {
            eprintln!("wrong_rules: {} tried, {} survive", self.tried, self.survivors.len());
        }
    }
}

/// The rules as they are hold, and nonsense does not; otherwise nothing is shown.
fn prepare(bench: &Bench, rules: &Rules) -> Result<(), String> {
    let said = |error: std::io::Error| format!("rt does not run: {error}");
    match bench.check(&[]).map_err(said)?.remove(0) {
        Verdict::Survives => {}
        Verdict::Refused(error) | Verdict::NoDefinition(error) | Verdict::NoAnswer(error) => {
            return Err(format!("the rules as they are do not hold: {error}"));
        }
    }
    let text = &rules.file("Record").ok_or("no Record.antt")?.text;
    let wrong = text.replace(" = true", " = false");
    if !matches!(bench.check_one("Record", wrong).map_err(said)?, Verdict::Refused(_)) {
        return Err("no case refuses that every `= true` of Record.antt is `= false`".to_string());
    }
    let nonsense = format!("{text}\nabbrev pub nonsense : ℕ\nnonsense = nonesuch\n");
    match bench.check_one("Record", nonsense).map_err(said)? {
        Verdict::NoDefinition(_) => Ok(()),
        _ => Err("a definition that names nothing is not refused".to_string()),
    }
}

fn try_all(benches: &[Bench], rules: &Rules, changes: &[&Change], all: bool) -> Results {
    let next = AtomicUsize::new(0);
    let results = Mutex::new(Results::default());
    let batches: Vec<&[&Change]> = changes.chunks(TOGETHER).collect();
    std::thread::scope(|scope| {
        for bench in benches {
            scope.spawn(|| {
                while let Some(batch) = batches.get(next.fetch_add(1, Ordering::Relaxed)) {
                    let changed: Vec<(&str, String)> =
                        batch.iter().map(|change| (FILES[change.file], change.text(rules))).collect();
                    let verdicts = bench.check(&changed);
                    let mut results = results.lock().unwrap_or_else(|poisoned| poisoned.into_inner());
                    match verdicts {
                        Ok(verdicts) => {
                            for (change, verdict) in batch.iter().zip(&verdicts) {
                                results.note(change, verdict, all);
                            }
                        }
                        Err(error) => {
                            results.broken = Some(error.to_string());
                            next.store(batches.len(), Ordering::Relaxed);
                        }
                    }
                }
            });
        }
    });
    results.into_inner().unwrap_or_else(|poisoned| poisoned.into_inner())
}

/// Holds the survivors to those that may survive; how many are wrong.
fn judge(results: &Results, allowed: &BTreeMap<String, String>, arguments: &Arguments, known: &[&Change]) -> usize {
    let mut wrong = 0;
    for survivor in results.survivors.iter().filter(|survivor| !allowed.contains_key(*survivor)) {
        println!("not refused, and not in wrong_rules.txt: {survivor}");
        wrong += 1;
    }
    for listed in allowed.keys() {
        let (file, definition) = place_of(listed);
        if !arguments.selects(file, definition) || results.survivors.contains(listed) {
            continue;
        }
        let there = known.iter().any(|change| change.identity == *listed);
        println!("in wrong_rules.txt, but {}: {listed}", if there { "refused" } else { "no such change" });
        wrong += 1;
    }
    wrong
}

pub fn run(arguments: &Arguments) -> Result<bool, String> {
    let variable = |name: &str| std::env::var_os(name).map(PathBuf::from).ok_or(format!("{name} is not set"));
    let (root, work) = (variable("WRONG_RULES_ROOT")?, variable("WRONG_RULES_WORK")?);
    let folder = arguments.folder.clone().unwrap_or_else(|| root.join("crates/rules"));
    let rules = Rules::read(&folder)?;
    if let Some(strange) = arguments.strange(&rules) {
        return Err(strange);
    }
    let made = changes(&rules)?;
    let chosen: Vec<&Change> =
        made.iter().filter(|change| arguments.selects(FILES[change.file], &change.definition)).collect();
    if arguments.list {
        print_list(&chosen);
        return Ok(true);
    }
    let allowed = allowed(&root.join("trials/wrong_rules.txt"))?;
    let begun = Instant::now();
    let specs = Specs::read(&folder)?;
    let benches: Vec<Bench> = (0..arguments.jobs)
        .map(|job| Bench { folder: work.join(job.to_string()).join("rules"), specs: &specs })
        .collect();
    prepare(&benches[0], &rules)?;
    let results = try_all(&benches, &rules, &chosen, arguments.all);
    if let Some(broken) = results.broken {
        return Err(format!("rt does not run: {broken}"));
    }
    let wrong = judge(&results, &allowed, arguments, &chosen);
    println!(
        "wrong_rules: {} tried, {} refused, {} no definition, {} survive ({} without an answer); {wrong} not as \
         wrong_rules.txt says ({} seconds)",
        results.tried,
        results.refused,
        results.undefined,
        results.survivors.len(),
        results.silent,
        begun.elapsed().as_secs()
    );
    Ok(wrong == 0)
}
