//! The antichain engine: a set is held by its maximal members only (source 003, section 6.1). That
//! is the published method by which the proved engine works too, written here separately, from
//! document 01 and its sources. It answers where the plain engine would have too many positions.

mod lists;
mod rows;
mod turn;

use super::{Rounds, Settled, Stage, Stop};
use crate::rules::codes::{FULL, NOTHING};
use crate::rules::table::{Position, Table};
use lists::{covered, meet, unite};
use turn::Turn;

struct Game {
    controller: Turn,
    world: Turn,
    start: Position,
    limit: usize,
    /// The largest named set so far.
    largest: usize,
}

/// The maximal members of a settled winning set, ascending.
struct Winning {
    list: Vec<Position>,
    rounds: u32,
}

impl Game {
    fn new(table: &Table, patience: i8, limit: usize) -> Game {
        Game {
            controller: Turn::new(&table.controller, &table.world, patience),
            world: Turn::new(&table.world, &table.controller, patience),
            start: table.start_position(patience),
            limit,
            largest: 0,
        }
    }

    fn all_safe(&self) -> Vec<Position> {
        vec![self.controller.most]
    }

    /// Empty if a named set has more maximal members than the room.
    fn fits(&mut self, list: &[Position]) -> Option<()> {
        self.largest = self.largest.max(list.len());
        if list.len() > self.limit {
            None
        } else {
            Some(())
        }
    }

    /// A(r, 0), A(r, 1) and so on to A(r, all inputs).
    fn each_input(&mut self, winning: &[Position]) -> Option<Vec<Position>> {
        let mut list = vec![self.world.most];
        self.fits(&list)?;
        for letter in 0..self.world.letters {
            list = meet(&list, &self.world.all_back(winning, letter), self.limit);
            self.fits(&list)?;
        }
        Some(list)
    }

    /// B(r, 0), B(r, 1) and so on to B(r, all outputs).
    fn some_output(&mut self, world: &[Position]) -> Option<Vec<Position>> {
        let mut list = Vec::new();
        for letter in 0..self.controller.letters {
            list = unite(&list, &self.controller.all_back(world, letter));
            self.fits(&list)?;
        }
        list.sort_unstable();
        Some(list)
    }

    /// Ascending lists of maximal members are equal exactly if their sets are. Each W is shown to
    /// `each` before its round.
    fn settle(
        &mut self,
        first: Vec<Position>,
        mut each: impl FnMut(&[Position]),
    ) -> Option<Winning> {
        let mut list = first;
        self.fits(&list)?;
        list.sort_unstable();
        let mut rounds = 0;
        loop {
            each(&list);
            let world = self.each_input(&list)?;
            let next = self.some_output(&world)?;
            if next == list {
                return Some(Winning { list, rounds });
            }
            list = next;
            rounds += 1;
        }
    }
}

fn stage(game: &mut Game, first: Vec<Position>, stage: Stage) -> Result<Winning, Stop> {
    let winning = game.settle(first, |_| ()).ok_or(Stop { code: FULL, stage })?;
    if winning.list.is_empty() {
        return Err(Stop { code: NOTHING, stage });
    }
    Ok(winning)
}

pub fn solve(table: &Table, patience: i8, limit: usize) -> Result<Settled, Stop> {
    let mut game = Game::new(table, patience, limit);
    let first = game.all_safe();
    let winning = stage(&mut game, first, Stage::Only)?;
    Ok(game.settled(&winning, game.largest))
}

/// The first half's states keep their places, the second half's come after them.
fn pair(first: &Position, states: usize, second: &Position) -> Position {
    std::array::from_fn(|state| if state < states { first[state] } else { second[state - states] })
}

/// Maximal halves make maximal pairs, so the list needs no thinning.
fn pairs(halves: &[Vec<Position>; 2], states: usize) -> Vec<Position> {
    let with_second =
        |first: &Position| halves[1].iter().map(|second| pair(first, states, second)).collect();
    halves[0].iter().map(with_second).collect::<Vec<Vec<Position>>>().concat()
}

/// Source 003, section 8, held to "W(0) replaced by the pairs whose halves win alone".
pub fn parts(
    tables: [&Table; 2],
    joined: &Table,
    patience: i8,
    limit: usize,
) -> Result<Settled, Stop> {
    let mut largest = 0;
    let mut alone = |table: &Table, which: Stage| -> Result<Vec<Position>, Stop> {
        let mut game = Game::new(table, patience, limit);
        let first = game.all_safe();
        let winning = stage(&mut game, first, which)?;
        largest = largest.max(game.largest);
        Ok(winning.list)
    };
    let halves = [alone(tables[0], Stage::FirstAlone)?, alone(tables[1], Stage::SecondAlone)?];
    let mut game = Game::new(joined, patience, limit);
    let pairs = pairs(&halves, tables[0].controller.states);
    game.fits(&pairs).ok_or(Stop { code: FULL, stage: Stage::Pairs })?;
    let winning = stage(&mut game, pairs, Stage::Last)?;
    let largest = largest.max(game.largest);
    Ok(game.settled(&winning, largest))
}

/// The list of each W.
struct Lists(Vec<Vec<Position>>);

impl Rounds for Lists {
    /// Each W is within the one before, so the first that doesn't cover the position is found by
    /// halving.
    fn fell(&self, position: &Position) -> Option<u32> {
        let round = self.0.partition_point(|list| covered(list, position));
        (round < self.0.len()).then_some(round as u32)
    }
}

/// The most maximal members that are followed.
const MOST_MEMBERS: usize = 256;

pub fn rounds(table: &Table, patience: i8) -> Option<impl Rounds> {
    let mut lists = Vec::new();
    let mut game = Game::new(table, patience, MOST_MEMBERS);
    game.settle(game.all_safe(), |list| lists.push(list.to_vec()))?;
    Some(Lists(lists))
}
