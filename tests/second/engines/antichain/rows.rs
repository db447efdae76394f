//! The controller's rows, from a settled list.

use super::lists::below;
use super::{Game, Settled, Winning};
use crate::rules::table::Position;

impl Game {
    fn after_round(&self, position: &Position, output: usize, input: usize) -> Position {
        self.world.forward(&self.controller.forward(position, output), input)
    }

    /// The smallest output from which every input leads back, with the next places.
    fn choice(&self, list: &[Position], place: usize) -> (usize, Vec<usize>) {
        let next = |output: usize, input: usize| {
            let after = self.after_round(&list[place], output, input);
            list.iter().position(|member| below(&after, member))
        };
        let returns = |output: usize| -> Option<Vec<usize>> {
            (0..self.world.letters).map(|input| next(output, input)).collect()
        };
        (0..self.controller.letters)
            .find_map(|output| returns(output).map(|places| (output, places)))
            .expect("a winner has an output")
    }

    /// The start's rows, then those of the other places in their order.
    fn rows(&self, list: &[Position], start: usize) -> Vec<[u8; 4]> {
        let others = (0..list.len()).filter(|place| *place != start);
        let mut rows = Vec::new();
        for place in std::iter::once(start).chain(others) {
            let (output, places) = self.choice(list, place);
            for (input, next) in places.into_iter().enumerate() {
                rows.push([place as u8, output as u8, input as u8, next as u8]);
            }
        }
        rows
    }

    pub fn settled(&self, winning: &Winning, largest: usize) -> Settled {
        let list = &winning.list;
        let start = list.iter().position(|member| below(&self.start, member));
        Settled {
            rounds: winning.rounds,
            winners: list.clone(),
            start,
            rows: start.map(|place| self.rows(list, place)).unwrap_or_default(),
            largest,
        }
    }
}
