//! Lists of maximal members: what is below both of two lists, and what is below one or the other.

use crate::rules::table::Position;

/// Eight counts of at most 7, each with 1 added.
const MOST_WEIGHT: usize = 64;

#[inline(always)]
pub fn below(lesser: &Position, greater: &Position) -> bool {
    let mut over = false;
    for state in 0..8 {
        over |= lesser[state] > greater[state];
    }
    !over
}

fn lesser_counts(first: &Position, second: &Position) -> Position {
    std::array::from_fn(|state| first[state].min(second[state]))
}

pub fn covered(list: &[Position], position: &Position) -> bool {
    list.iter().any(|member| below(position, member))
}

/// A position weighs more than each other position below it.
fn weight(position: &Position) -> usize {
    (position.iter().sum::<i8>() + 8) as usize
}

fn heaviest_first(candidates: &[Position]) -> Vec<Position> {
    let lightness = |candidate: &Position| MOST_WEIGHT - weight(candidate);
    let mut places = [0; MOST_WEIGHT + 2];
    for candidate in candidates {
        places[lightness(candidate) + 1] += 1;
    }
    for lighter in 1..places.len() {
        places[lighter] += places[lighter - 1];
    }
    let mut ordered = vec![[-1; 8]; candidates.len()];
    for candidate in candidates {
        let place = &mut places[lightness(candidate)];
        ordered[*place] = *candidate;
        *place += 1;
    }
    ordered
}

/// Adds the maximal ones of the candidates to `kept`, heaviest first, so that nothing added has
/// to be dropped again. No kept member may be below a candidate. Ends early once `kept` is
/// larger than the limit: each one added is maximal, so the set is larger too.
fn add_maximal(kept: &mut Vec<Position>, candidates: &[Position], limit: usize) {
    for candidate in &heaviest_first(candidates) {
        if kept.len() > limit {
            return;
        }
        if !covered(kept, candidate) {
            kept.push(*candidate);
        }
    }
}

pub fn thin(candidates: &[Position]) -> Vec<Position> {
    let mut kept = Vec::with_capacity(candidates.len());
    add_maximal(&mut kept, candidates, usize::MAX);
    kept
}

/// The maximal members of what is below one position and a list. Most pairs fall here, before
/// they are held against a long list.
fn meet_one(position: &Position, list: &[Position]) -> Vec<Position> {
    let mut kept: Vec<Position> = Vec::new();
    for other in list {
        let lesser = lesser_counts(position, other);
        if !covered(&kept, &lesser) {
            kept.retain(|member| !below(member, &lesser));
            kept.push(lesser);
        }
    }
    kept
}

/// The maximal members of what is below both lists. A member that the other list covers stays
/// as it is, and its pairs give nothing more (source 003, proposition 2).
pub fn meet(first: &[Position], second: &[Position], limit: usize) -> Vec<Position> {
    let (mut kept, first_rest): (Vec<_>, Vec<_>) =
        first.iter().partition(|member| covered(second, member));
    let (both, second_rest): (Vec<_>, Vec<_>) =
        second.iter().partition(|member| covered(first, member));
    for member in both {
        if !covered(&kept, &member) {
            kept.push(member);
        }
    }
    let mut candidates = Vec::new();
    for member in &first_rest {
        candidates.extend(meet_one(member, &second_rest));
    }
    add_maximal(&mut kept, &candidates, limit);
    kept
}

/// The maximal members of what is below one list or the other.
pub fn unite(first: &[Position], second: &[Position]) -> Vec<Position> {
    let new = |member: &&Position| !covered(first, member);
    let added: Vec<Position> = second.iter().filter(new).copied().collect();
    let stays = |member: &&Position| !covered(&added, member);
    let mut united: Vec<Position> = first.iter().filter(stays).copied().collect();
    united.extend(added);
    united
}
