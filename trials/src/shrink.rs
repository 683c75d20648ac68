//! The shortest case that still shows a difference, told so that a person can replay it.

use crate::case::{pieces, whole, Call, Case, Model, Start};
use crate::pair::Pair;
use crate::start::named;
use crate::wire::{show_text, words_text, Difference, Memory, Words};
use peer::{Record, DESK_REPLY, LINE_MOST, NAMES, WORDS};
use std::time::{Duration, Instant};

/// Of a case that cannot be shrunk so many calls are told.
const LONG: usize = 12;

/// How long shrinking may take.
const PATIENCE: Duration = Duration::from_secs(30);

fn fresh() -> Words {
    Record::fresh().to_words()
}

/// Delta debugging: leaves out ever shorter runs of a list where the rest still shows it.
pub fn least<T: Clone>(list: &[T], mut shows: impl FnMut(&[T]) -> bool) -> Vec<T> {
    let mut best = list.to_vec();
    let mut run = best.len().div_ceil(2);
    while run > 0 {
        let mut from = 0;
        while from < best.len() {
            let end = (from + run).min(best.len());
            let shorter = [&best[..from], &best[end..]].concat();
            if shows(&shorter) {
                best = shorter;
            } else {
                from = end;
            }
        }
        run /= 2;
    }
    best
}

/// Plainer values than this one, the plainest first.
fn plainer(value: u64, plain: &[u64]) -> Vec<u64> {
    let known = plain.iter().position(|&plain| plain == value);
    let less = [value / 2, value.saturating_sub(1)];
    let less = less.iter().filter(|&&less| known.is_none() && less < value);
    plain[..known.unwrap_or(plain.len())].iter().chain(less).copied().collect()
}

struct Shrinker<'a> {
    pair: &'a mut Pair,
    best: Case,
    difference: Difference,
    /// A sound record stays sound: else every wrong box would be told by 604.
    is_sound: bool,
    deadline: Instant,
    tries: usize,
    taken: usize,
}

impl Shrinker<'_> {
    /// Takes the case up to the call that shows a difference, if one does.
    fn offer(&mut self, mut case: Case) -> bool {
        if case.start.is_sound() != self.is_sound || Instant::now() > self.deadline {
            return false;
        }
        self.tries += 1;
        let Some((at, difference)) = run(&case, self.pair) else {
            return false;
        };
        case.calls.truncate(at + 1);
        (self.best, self.difference) = (case, difference);
        self.taken += 1;
        true
    }

    fn offer_with(&mut self, change: impl FnOnce(&mut Case)) -> bool {
        let mut case = self.best.clone();
        change(&mut case);
        self.offer(case)
    }

    fn offer_call(&mut self, place: usize, change: impl FnOnce(&mut Call)) -> bool {
        let Some(mut call) = self.best.calls.get(place).cloned() else {
            return false;
        };
        change(&mut call);
        call != self.best.calls[place] && self.offer_with(|case| case.calls[place] = call)
    }

    fn shrink(&mut self) {
        // What stands at places of its own has no room for other lengths.
        if self.best.memory != Memory::Usual && !self.offer_with(|case| case.memory = Memory::Usual) {
            return;
        }
        self.later_start();
        let mut before = usize::MAX;
        while before != self.taken {
            before = self.taken;
            let calls = self.best.calls.clone();
            least(&calls, |fewer| !fewer.is_empty() && self.offer_with(|case| case.calls = fewer.to_vec()));
            for place in 0..self.best.calls.len() {
                self.plainer_call(place);
                self.shorter_input(place);
            }
            self.plainer_start();
        }
    }

    /// Only the last calls, from the record that they find: so job numbers and names stay right.
    fn later_start(&mut self) {
        let Case { start, calls, .. } = self.best.clone();
        let mut model = Model::new(&start.words, vec![0; start.ring_length]);
        let found: Vec<Words> = calls.iter().map(|call| (model.words, model.call(call)).0).collect();
        let mut kept = 1;
        while kept < calls.len() {
            let from = calls.len() - kept;
            if self.offer_with(|case| (case.start.words, case.calls) = (found[from], calls[from..].to_vec())) {
                return;
            }
            kept *= 2;
        }
    }

    /// The desk's reply, lines and offset, no more input; a perform rather than a serve.
    fn plainer_call(&mut self, place: usize) {
        self.offer_call(place, |call| call.offset = 0);
        self.offer_call(place, |call| call.last |= call.puts_lines());
        if self.best.calls.get(place).is_some_and(Call::puts_lines) {
            self.offer_call(place, |call| call.room = LINE_MOST);
            let _ = self.offer_call(place, |call| *call = Call::perform(call.input.clone()))
                || self.offer_call(place, |call| call.reply = DESK_REPLY);
        }
    }

    fn offer_input(&mut self, place: usize, pieces: &[Vec<u8>]) -> bool {
        self.offer_call(place, |call| call.input = pieces.concat().into())
    }

    /// Fewer records, shorter payloads, smaller bytes.
    fn shorter_input(&mut self, place: usize) {
        let Some(call) = self.best.calls.get(place) else {
            return;
        };
        let all = pieces(&call.input);
        let mut pieces = least(&all, |fewer| self.offer_input(place, fewer));
        for piece in 0..pieces.len() {
            let with = |bytes: Vec<u8>| [&pieces[..piece], &[bytes], &pieces[piece + 1..]].concat();
            let (head, body) = pieces[piece].split_at(if whole(&pieces[piece]).is_some() { 4 } else { 0 });
            let joined = |body: &[u8]| match head {
                [mark, mark_end, kind, _] => [&[*mark, *mark_end, *kind, body.len() as u8], body].concat(),
                _ => body.to_vec(),
            };
            let shorter = least(body, |body| {
                let bytes = joined(body);
                whole(&bytes).is_none() == head.is_empty() && self.offer_input(place, &with(bytes))
            });
            let mut bytes = joined(&shorter);
            for at in head.len()..bytes.len() {
                for value in plainer(bytes[at].into(), &[0, 1, 2, 5]) {
                    let byte = std::mem::replace(&mut bytes[at], value as u8);
                    if self.offer_input(place, &with(bytes.clone())) {
                        break;
                    }
                    bytes[at] = byte;
                }
            }
            pieces[piece] = bytes;
        }
    }

    /// A record that is nearer to a fresh one, a shorter ring. Words that are equal may have to stay so, and the last name
    /// the job's.
    fn plainer_start(&mut self) {
        for place in 0..WORDS {
            let words = self.best.start.words;
            let plain = [fresh()[place], 0, 1, 2, 5, 999, u32::MAX.into()];
            for value in plainer(words[place], &plain) {
                let mut one = words;
                one[place] = value;
                let equal = words.map(|word| if word == words[place] { value } else { word });
                // Equal words only go down, so that this comes to an end.
                let together = value < words[place] && !plain.contains(&words[place]);
                if self.offer_words(one) || (together && self.offer_words(equal)) {
                    break;
                }
            }
        }
        for length in plainer(self.best.start.ring_length as u64, &[1, 2, 4, 16, 256, 4096]) {
            if self.offer_with(|case| case.start.ring_length = length as usize) {
                break;
            }
        }
    }

    /// These words, or else with the last name that they ask for.
    fn offer_words(&mut self, words: Words) -> bool {
        let named = Record::from_words(&words).map_or(words, |record| named(record).to_words());
        self.offer_with(|case| case.start.words = words)
            || (named != words && named != self.best.start.words && self.offer_with(|case| case.start.words = named))
    }
}

/// Runs a case by itself: the first call that shows a difference.
fn run(case: &Case, pair: &mut Pair) -> Option<(usize, Difference)> {
    pair.forget();
    pair.reset(&case.start);
    for (at, call) in case.calls.iter().enumerate() {
        if let Err(difference) = pair.call(call, case.memory) {
            pair.forget();
            return Some((at, difference));
        }
    }
    pair.settle().map(|shown| (shown.at, shown.difference))
}

/// Prints what differs and the shortest case that shows it. Where the case does not show it by itself, it is told as it
/// was found.
pub fn tell(case: Case, pair: &mut Pair, difference: Difference) {
    let is_sound = case.start.is_sound();
    let deadline = Instant::now() + PATIENCE;
    let mut shrinker = Shrinker { pair, best: case.clone(), difference, is_sound, deadline, tries: 0, taken: 0 };
    let shows = shrinker.offer(case);
    if shows {
        shrinker.shrink();
    }
    let Shrinker { best, difference, tries, pair, .. } = shrinker;
    println!("{difference}");
    if shows {
        println!("  the shortest case that shows it, of {} calls ({tries} tries):", best.calls.len());
        tell_start(&best);
        tell_calls(&best, pair);
    } else if !best.calls.is_empty() {
        println!("  (it does not show again when the case is run by itself; the case, of {} calls:)", best.calls.len());
        tell_start(&best);
        best.calls.iter().take(LONG).for_each(|call| println!("    call: {call}"));
    }
}

fn tell_start(case: &Case) {
    let Start { words, ring_length, fill } = case.start;
    println!("    start: {}", if words == fresh() { "fresh".to_string() } else { words_text(&words) });
    for (place, fresh) in fresh().into_iter().enumerate().filter(|&(place, fresh)| words[place] != fresh) {
        println!("      word {place}, {}: {} (fresh {fresh})", NAMES[place], words[place]);
    }
    println!("    ring length: {ring_length}, ring bytes: fill {fill}");
    if case.memory != Memory::Usual {
        println!("    memory: {:?}", case.memory);
    }
}

/// Tells each call, and what the peer comes to.
fn tell_calls(case: &Case, pair: &mut Pair) {
    pair.reset(&case.start);
    for (place, call) in case.calls.iter().enumerate() {
        println!("    call {}: {call}", place + 1);
        if let Ok(came) = pair.call(call, case.memory) {
            println!("      peer: {came}; {}", show_text(pair.model.text()));
        }
    }
    pair.forget();
}
