//! The negative control: for each kind of reply the program's own is right, and each change of it has to
//! be caught.

use super::draw::{Pair, SHAPES};
use super::reply::{fault, heard, kind, Reply, KINDS};
use crate::make::Dice;
use std::io;

/// So many pairs are tried for each kind of reply.
const TRIED: usize = 5;

/// So often pairs are drawn until there are that many.
const MOST_DRAWN: usize = 2_000;

/// Every reply that a way of changing makes of one.
type Way = (&'static str, fn(&Reply) -> Vec<Reply>);

const WAYS: [Way; 9] = [
    ("another word", other_words),
    ("a state left out", states_left_out),
    ("a state too many", states_added),
    ("states in another order", |reply| lines(reply, |words| words[1..].reverse())),
    ("no line end", |reply| printed(reply, |text| text.trim_end().to_string())),
    ("a line too many", |reply| printed(reply, |text| format!("{text}\n"))),
    ("nothing printed, or something", turned),
    ("another sentence", other_sentences),
    ("another exit status", |reply| vec![Reply { success: false, ..reply.clone() }]),
];

/// Changes what was printed; none where it stays as it was.
fn printed(reply: &Reply, change: impl Fn(&str) -> String) -> Vec<Reply> {
    let printed = change(&String::from_utf8_lossy(&reply.printed)).into_bytes();
    let spoilt = Reply { printed, ..reply.clone() };
    Some(spoilt).filter(|spoilt| spoilt != reply).into_iter().collect()
}

/// Changes the words of the line that was printed, where there is one.
fn lines(reply: &Reply, change: impl Fn(&mut Vec<String>)) -> Vec<Reply> {
    if reply.printed.is_empty() {
        return Vec::new();
    }
    printed(reply, |text| {
        let mut words: Vec<String> = text.split_whitespace().map(str::to_string).collect();
        change(&mut words);
        words.join(" ") + "\n"
    })
}

fn other_words(reply: &Reply) -> Vec<Reply> {
    let words = KINDS[..4].iter();
    words.flat_map(|word| lines(reply, |words| words[0] = word.to_string())).collect()
}

fn states_left_out(reply: &Reply) -> Vec<Reply> {
    let left_out =
        |state: usize| lines(reply, |words| words.retain(|word| *word != state.to_string()));
    (0..8).flat_map(left_out).collect()
}

fn states_added(reply: &Reply) -> Vec<Reply> {
    let added = |state: usize| {
        lines(reply, |words| {
            words.push(state.to_string());
            words[1..].sort();
            words.dedup();
        })
    };
    (0..8).flat_map(added).collect()
}

fn turned(reply: &Reply) -> Vec<Reply> {
    let printed = if reply.printed.is_empty() { b"same\n".to_vec() } else { Vec::new() };
    vec![Reply { printed, ..reply.clone() }]
}

/// None, one too many, and that of the other word.
fn other_sentences(reply: &Reply) -> Vec<Reply> {
    let said = String::from_utf8_lossy(&reply.said).into_owned();
    let other = match said.strip_prefix("The first") {
        Some(rest) => format!("The second{rest}"),
        None => said.replace("The second", "The first"),
    };
    let sentences = [String::new(), said.clone() + "\n", other];
    let changed = sentences.into_iter().filter(|sentence| *sentence != said);
    changed.map(|sentence| Reply { said: sentence.into(), ..reply.clone() }).collect()
}

/// Pairs to which this kind of reply is due.
fn pairs(dice: &mut Dice, due: &str) -> Vec<Pair> {
    let drawn = (0..MOST_DRAWN).map(|number| SHAPES[number % SHAPES.len()](dice));
    drawn.filter(|pair| kind(pair) == due).take(TRIED).collect()
}

#[derive(Default)]
struct Control {
    passed: u64,
    failed: u64,
    /// How many replies each way has made.
    made: [usize; WAYS.len()],
}

impl Control {
    fn hold(&mut self, holds: bool, what: &str) {
        if holds {
            self.passed += 1;
        } else {
            self.failed += 1;
            println!("FAILED: {what}");
        }
    }

    /// The reply as it is, and changed in every way.
    fn reply(&mut self, pair: &Pair, reply: &Reply) {
        self.hold(fault(pair, reply).is_none(), &format!("a right reply to {pair}"));
        for (number, (name, way)) in WAYS.iter().enumerate() {
            for spoilt in way(reply) {
                self.made[number] += 1;
                let caught = fault(pair, &spoilt).is_some();
                self.hold(caught, &format!("not caught: {name}, {pair}"));
            }
        }
    }

    /// No way may have made nothing.
    fn least(&mut self) {
        for ((name, _), made) in WAYS.iter().zip(self.made) {
            println!("  {made} of at least {TRIED}: {name}");
            self.hold(made >= TRIED, &format!("only {made} of at least {TRIED}: {name}"));
        }
    }
}

/// How many passed and how many failed.
pub fn run(line: &str, seed: u64) -> io::Result<(u64, u64)> {
    let mut dice = Dice::new(seed);
    let mut control = Control::default();
    for due in KINDS {
        let found = pairs(&mut dice, due);
        control.hold(found.len() == TRIED, &format!("too few pairs: {due}"));
        for pair in found {
            control.reply(&pair, &heard(line, &pair)?);
        }
    }
    control.least();
    Ok((control.passed, control.failed))
}
