//! The plain engine: every safe position of a side is one yes or no, and every named set of
//! document 01 is filled in by its own definition.

mod ground;
mod rows;
mod sets;
mod steps;

use super::{Rounds, Settled, Stage, Stop};
use crate::rules::codes::{FULL, NOTHING};
use crate::rules::table::{Position, Table};
use ground::{Ground, LOST};
use sets::Winning;
use steps::{all_steps, Steps};

struct Game {
    controller: Ground,
    world: Ground,
    outputs: Steps,
    inputs: Steps,
    /// The number of the start position: LOST where a mark of its own makes it unsafe.
    start: usize,
}

impl Game {
    fn new(table: &Table, patience: i8) -> Game {
        let controller = Ground::new(table.controller.states, patience);
        let world = Ground::new(table.world.states, patience);
        let start = controller.number(&table.start_position(patience));
        Game {
            outputs: all_steps(&table.controller, &controller, &table.world, &world),
            inputs: all_steps(&table.world, &world, &table.controller, &controller),
            controller,
            world,
            start,
        }
    }

    /// "W(0) is all safe controller-turn positions."
    fn all_safe(&self) -> Vec<bool> {
        vec![true; self.controller.positions.len()]
    }
}

/// One stage: FULL while the rounds run, NOTHING if no position is left.
fn stage(game: &Game, first: Vec<bool>, room: &mut Held, stage: Stage) -> Result<Winning, Stop> {
    let winning = game.settle(first, room).ok_or(Stop { code: FULL, stage })?;
    if winning.set.contains(&true) {
        return Ok(winning);
    }
    Err(Stop { code: NOTHING, stage })
}

/// The room N, and the largest named set that was held against it.
struct Held {
    room: usize,
    largest: usize,
}

/// No room to hold anything against: nothing is counted then.
const ENDLESS: usize = usize::MAX;

impl Held {
    /// "FULL is given exactly if ... some W, A or B of it has more maximal members than the room N":
    /// empty then.
    fn hold(&mut self, ground: &Ground, set: &[bool]) -> Option<()> {
        if self.room == ENDLESS {
            return Some(());
        }
        let members = ground.maximal(set).count();
        self.largest = self.largest.max(members);
        (members <= self.room).then_some(())
    }
}

pub fn solve(table: &Table, patience: i8, room: usize) -> Result<Settled, Stop> {
    let mut held = Held { room, largest: 0 };
    let game = Game::new(table, patience);
    let winning = stage(&game, game.all_safe(), &mut held, Stage::Only)?;
    Ok(game.settled(&winning, held.largest))
}

/// "Solve each table alone, then run the rounds on the joined table with W(0) replaced by the
/// pairs whose halves win alone."
pub fn parts(
    tables: [&Table; 2],
    joined: &Table,
    patience: i8,
    room: usize,
) -> Result<Settled, Stop> {
    let mut held = Held { room, largest: 0 };
    let mut halves = Vec::new();
    for (table, alone) in tables.into_iter().zip([Stage::FirstAlone, Stage::SecondAlone]) {
        let game = Game::new(table, patience);
        halves.push(stage(&game, game.all_safe(), &mut held, alone)?.set);
    }
    let game = Game::new(joined, patience);
    let size = halves[0].len();
    let both = |number: usize| halves[0][number % size] && halves[1][number / size];
    let pairs: Vec<bool> = (0..game.controller.positions.len()).map(both).collect();
    held.hold(&game.controller, &pairs).ok_or(Stop { code: FULL, stage: Stage::Pairs })?;
    let winning = stage(&game, pairs, &mut held, Stage::Last)?;
    Ok(game.settled(&winning, held.largest))
}

/// The round in which each position fell, by its number.
struct Fallen {
    controller: Ground,
    fell: Vec<u32>,
}

impl Rounds for Fallen {
    fn fell(&self, position: &Position) -> Option<u32> {
        match self.controller.number(position) {
            LOST => Some(0),
            number => Some(self.fell[number]).filter(|round| *round != sets::NEVER),
        }
    }
}

pub fn rounds(table: &Table, patience: i8) -> impl Rounds {
    let game = Game::new(table, patience);
    let mut held = Held { room: ENDLESS, largest: 0 };
    let winning = game.settle(game.all_safe(), &mut held).expect("no set is too large");
    Fallen { controller: game.controller, fell: winning.fell }
}
