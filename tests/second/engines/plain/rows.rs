//! The winners' list and the controller's rows, from a settled set.

use super::ground::LOST;
use super::sets::{inside, Winning};
use super::{Game, Settled};

impl Game {
    /// "Maximal members only, ascending as byte strings": a byte is a count and one more.
    fn listed(&self, set: &[bool]) -> Vec<usize> {
        let mut list: Vec<usize> = self.controller.maximal(set).collect();
        list.sort_by_key(|number| {
            self.controller.positions[*number].map(|count| (count + 1) as u8)
        });
        list
    }

    /// The first winner that a position is below. A position that isn't safe is below none.
    fn first_above(&self, list: &[usize], number: usize) -> Option<usize> {
        if number == LOST {
            return None;
        }
        let lesser = &self.controller.positions[number];
        list.iter().position(|winner| {
            let greater = &self.controller.positions[*winner];
            (0..8).all(|state| lesser[state] <= greater[state])
        })
    }

    fn after_round(&self, number: usize, output: usize, input: usize) -> usize {
        match self.outputs[output][number] {
            LOST => LOST,
            middle => self.inputs[input][middle],
        }
    }

    /// "A state's output is the smallest letter from which every input leads back into the
    /// winning set."
    fn chosen_output(&self, set: &[bool], number: usize) -> usize {
        let returns = |output: usize| {
            (0..self.inputs.len()).all(|input| inside(set, self.after_round(number, output, input)))
        };
        (0..self.outputs.len()).find(|output| returns(*output)).expect("a winner has an output")
    }

    /// "Its next state for an input is the first winner in the list that the position after the
    /// round is below."
    fn rows_of(&self, set: &[bool], list: &[usize], place: usize) -> Vec<[u8; 4]> {
        let output = self.chosen_output(set, list[place]);
        let next = |input: usize| {
            let after = self.after_round(list[place], output, input);
            self.first_above(list, after).expect("the round leads back to the winners")
        };
        (0..self.inputs.len())
            .map(|input| [place as u8, output as u8, input as u8, next(input) as u8])
            .collect()
    }

    /// "The start state's rows come first, then the others by state, inputs ascending."
    fn rows(&self, set: &[bool], list: &[usize], start: usize) -> Vec<[u8; 4]> {
        let places = 0..list.len();
        let mut rows: Vec<[u8; 4]> =
            places.flat_map(|place| self.rows_of(set, list, place)).collect();
        rows.sort_by_key(|row| (row[0] as usize != start, row[0], row[2]));
        rows
    }

    pub fn settled(&self, winning: &Winning, largest: usize) -> Settled {
        let list = self.listed(&winning.set);
        let start = self.first_above(&list, self.start);
        let rows = start.map(|start| self.rows(&winning.set, &list, start));
        Settled {
            rounds: winning.rounds,
            winners: list.iter().map(|number| self.controller.positions[*number]).collect(),
            start,
            rows: rows.unwrap_or_default(),
            largest,
        }
    }
}
