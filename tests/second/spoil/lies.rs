//! What all agree in is changed, to something that the call's own property has to see through.

use super::Control;
use crate::call::{Call, Lie, Operation, Outcome};
use crate::play::Explored;
use std::collections::BTreeMap;

/// From so many calls lies are made, and each is told so often at most.
const SAMPLES: usize = 400;
const MOST_TOLD: usize = 40;

impl Control {
    /// Each lie has to be seen through by the property, and each of its checks has to see through some.
    pub fn lies(&mut self, operation: &'static Operation) {
        let mut by_check: BTreeMap<&str, u64> = BTreeMap::new();
        let samples = self.samples(operation, SAMPLES);
        for lie in operation.lies {
            let told = self.tell(lie, &samples, &mut by_check);
            self.hold(format!("{}: {}, never told", operation.name, lie.name), told > 0);
        }
        for check in operation.checks {
            let number = by_check.get(check).copied().unwrap_or(0);
            println!("  {}: {check} saw through {number}", operation.name);
            self.hold(format!("{}: a lie by {check}", operation.name), number > 0);
        }
    }

    /// How often the lie could be told.
    fn tell(
        &mut self,
        lie: &Lie,
        samples: &[(Call, Outcome)],
        by_check: &mut BTreeMap<&'static str, u64>,
    ) -> usize {
        let mut told = 0;
        for (call, right) in samples {
            let Some(wrong) = (lie.tell)(call, right, &mut self.session.dice) else { continue };
            let found = (call.operation.property)(call, &wrong, &mut Explored::default());
            self.hold(format!("{}: {}", call.operation.name, lie.name), !found.is_empty());
            found.iter().for_each(|(check, _)| *by_check.entry(check).or_default() += 1);
            told += 1;
            if told == MOST_TOLD {
                break;
            }
        }
        told
    }
}
