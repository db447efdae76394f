//! One run: every call is put to each oracle, and to the proved calls where they can be asked. What
//! passed and what failed is counted, and what came up.

use crate::call::{lent, Call, Feature, Layout, Outcome, Use, Voice, ANY};
use crate::compare::{fault, print_fault, MOST_PRINTED};
use crate::make::Dice;
use crate::play::Explored;
use crate::proved::Proved;
use std::collections::BTreeMap;
use std::io;

/// How often an operation gave a code together with a feature.
pub type Seen = BTreeMap<(&'static str, u32, Feature), u64>;

/// Changes an outcome, if it can; the negative control counts how often.
pub type Change = Box<dyn FnMut(&Call, &mut Outcome)>;

pub struct Session {
    pub dice: Dice,
    pub proved: Option<Proved>,
    pub passed: u64,
    pub failed: u64,
    pub proved_answers: u64,
    pub seen: Seen,
    pub explored: Explored,
    /// Changes what the proved calls answered, as a fault of theirs would.
    pub spoil: Option<Change>,
    /// Changes what all agreed in, as a fault of all would.
    pub bend: Option<Change>,
    /// Whether faults are kept to itself.
    pub quiet: bool,
    /// How often each statement that is no call's was broken.
    pub broken: BTreeMap<String, u64>,
}

impl Session {
    /// The proved calls are asked too where they are given.
    pub fn new(seed: u64, proved: Option<Proved>) -> Session {
        Session {
            dice: Dice::new(seed),
            proved,
            passed: 0,
            failed: 0,
            proved_answers: 0,
            seen: Seen::new(),
            explored: Explored::default(),
            spoil: None,
            bend: None,
            quiet: false,
            broken: BTreeMap::new(),
        }
    }

    pub fn put(&mut self, call: &Call) -> Outcome {
        self.enter(call, |_| None)
    }

    /// A call of which more is known beforehand.
    pub fn put_knowing(
        &mut self,
        call: &Call,
        known: &str,
        holds: impl Fn(&Outcome) -> bool,
    ) -> Outcome {
        self.enter(call, |outcome| (!holds(outcome)).then(|| format!("expected: {known}")))
    }

    fn enter(&mut self, call: &Call, wanted: impl Fn(&Outcome) -> Option<String>) -> Outcome {
        let call = &self.laid_out(call);
        let mut voices = self.voices(call);
        self.count(call, &voices[0].outcome);
        let found = fault(call, &voices, &mut self.explored);
        if let Some(bend) = &mut self.bend {
            bend(call, &mut voices[0].outcome);
        }
        match found.or_else(|| wanted(&voices[0].outcome)) {
            None => self.passed += 1,
            Some(reason) => self.fail(call, &voices, &reason),
        }
        voices.swap_remove(0).outcome
    }

    /// The same call with its buffers anywhere in memory, and those that are written to now and then
    /// longer than they need to be. Read buffers with the same bytes may be one.
    fn laid_out(&mut self, call: &Call) -> Call {
        let mut call = call.clone();
        for place in 0..call.buffers.len() {
            let used = call.operation.buffers[place].1;
            let long = call.buffers[place].bytes.len();
            if used == Use::Written && long > 0 && !call.notes.contains(&EXACT) {
                let more = [0, 0, 0, 1, 40][self.dice.below(5)];
                call.buffers[place].bytes.extend(&lent(long + more)[long..]);
            }
            call.buffers[place].layout = self.layout(&call, place);
        }
        call
    }

    fn layout(&mut self, call: &Call, place: usize) -> Layout {
        let read = |place: usize| call.operation.buffers[place].1 == Use::Read;
        let same = |other: &usize| {
            read(*other) && read(place) && call.buffers[*other].bytes == call.buffers[place].bytes
        };
        match (0..place).find(same) {
            Some(other) if self.dice.chance(50) => Layout::SameAs(other),
            _ if self.dice.chance(50) => Layout::BeforeWall,
            _ if self.dice.chance(50) => Layout::AfterWall(0),
            _ => Layout::AfterWall(self.dice.between(1, 15) as u32),
        }
    }

    /// The oracles work while the proved calls do.
    fn voices(&mut self, call: &Call) -> Vec<Voice> {
        let asked = self.proved.as_mut().map(|proved| proved.ask(call, 0));
        let mut voices = (call.operation.oracles)(call);
        let (Some(asked), Some(proved)) = (asked, self.proved.as_mut()) else { return voices };
        match asked.and_then(|()| proved.hear(call)) {
            Ok(mut outcome) => {
                self.proved_answers += 1;
                if let Some(spoil) = &mut self.spoil {
                    spoil(call, &mut outcome);
                }
                voices.push(Voice { name: "proved", outcome });
            }
            Err(error) => self.break_off(call, &voices, error),
        }
        voices
    }

    fn fail(&mut self, call: &Call, voices: &[Voice], reason: &str) {
        self.failed += 1;
        match self.failed {
            _ if self.quiet => {}
            0..=MOST_PRINTED => print_fault(call, voices, reason),
            _ if self.failed == MOST_PRINTED + 1 => println!("FAILED: and more, only counted"),
            _ => {}
        }
    }

    /// Whoever gives the proved answers is gone, so there is nothing left to compare.
    fn break_off(&mut self, call: &Call, voices: &[Voice], error: io::Error) -> ! {
        self.failed += 1;
        print_fault(call, voices, &format!("the proved calls broke off: {error}"));
        self.end();
        println!("{} passed, {} failed", self.passed, self.failed);
        std::process::exit(1)
    }

    /// The process of the proved calls has to end well, too.
    pub fn end(&mut self) {
        let Some(proved) = self.proved.take() else { return };
        if let Err(error) = proved.end() {
            println!("FAILED: a process of the proved calls ended badly: {error}");
            self.failed += 1;
        }
    }

    /// Something that is no call but has to hold as well.
    pub fn hold(&mut self, what: &str, holds: bool) {
        if holds {
            self.passed += 1;
        } else {
            self.failed += 1;
            *self.broken.entry(what.to_string()).or_default() += 1;
            if !self.quiet {
                println!("FAILED: {what}");
            }
        }
    }

    /// Counts that something came up.
    pub fn note(&mut self, operation: &'static str, code: u32, feature: Feature) {
        *self.seen.entry((operation, code, feature)).or_default() += 1;
    }

    fn count(&mut self, call: &Call, outcome: &Outcome) {
        let mut features = (call.operation.features)(call, outcome);
        features.extend(&call.notes);
        features.extend(&outcome.notes);
        features.extend(layouts(call));
        features.push(ANY);
        for feature in features {
            self.note(call.operation.name, outcome.result, feature);
        }
    }
}

/// The note of a call whose buffers keep their lengths.
pub const EXACT: Feature = "as it stands";

fn layouts(call: &Call) -> Vec<Feature> {
    let any = |holds: fn(Layout) -> bool| call.buffers.iter().any(|buffer| holds(buffer.layout));
    let named: [(Feature, fn(Layout) -> bool); 4] = [
        ("a buffer before a wall", |layout| layout == Layout::BeforeWall),
        ("a buffer after a wall", |layout| layout == Layout::AfterWall(0)),
        ("a buffer at any address", |layout| matches!(layout, Layout::AfterWall(1..))),
        ("two tables in the same bytes", |layout| matches!(layout, Layout::SameAs(_))),
    ];
    named.iter().filter(|(_, holds)| any(*holds)).map(|(feature, _)| *feature).collect()
}
