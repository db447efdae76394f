//! Wrong outcomes of a check: the other verdict. They are told where the play comes to its end.

use super::{checked, first_decides};
use crate::call::{Call, Lie, Outcome};
use crate::calls::solved::patience;
use crate::follow::longest::most_visits;
use crate::play::elsewhere;
use crate::rules::answer::Answer;
use crate::rules::codes::{REALIZABLE, UNREALIZABLE};

pub static LIES: [Lie; 3] = [
    Lie {
        name: "1 though every run keeps to K",
        tell: |call, right, _| instead_of(REALIZABLE, call, right),
    },
    Lie {
        name: "0 though a run passes K",
        tell: |call, right, _| instead_of(UNREALIZABLE, call, right),
    },
    Lie {
        name: "0 as if the first visit went free",
        tell: |call, right, _| as_if_free(call, right),
    },
];

fn instead_of(verdict: u32, call: &Call, right: &Outcome) -> Option<Outcome> {
    let (table, controller) = checked(call).ok().filter(|_| right.result == verdict)?;
    elsewhere::keeps(&table, patience(call) as i8, &controller)?;
    let code = REALIZABLE + UNREALIZABLE - verdict;
    let mut outcome = right.clone();
    outcome.result = code;
    outcome.write(call, "answer", &Answer { code, ..Answer::default() }.bytes());
    Some(outcome)
}

/// Where that visit alone is over K.
fn as_if_free(call: &Call, right: &Outcome) -> Option<Outcome> {
    let (table, controller) = checked(call).ok()?;
    let most = most_visits(&table, &controller);
    let decides = first_decides(&table, &controller, most, patience(call));
    decides.then(|| instead_of(UNREALIZABLE, call, right))?
}
