//! Groups of cases, and the order that cases are drawn in.
//!
//! Each group has a name, a weight and a function that makes one case from a
//! generator and a turn number. Turns count up within the group, so that a
//! group can go through a list of variants instead of leaving them to chance.
//! The same seed and number always give the same case.

use crate::random::Random;

/// Makes one case from a generator and a turn number.
pub type Maker<C> = fn(&mut Random, usize) -> C;

pub struct Group<C> {
    pub name: &'static str,
    weight: usize,
    make: Maker<C>,
}

pub const fn group<C>(name: &'static str, weight: usize, make: Maker<C>) -> Group<C> {
    Group { name, weight, make }
}

/// The place of a group in its list, and the case of this number (from 0)
/// that it makes under a seed.
pub fn draw_case<C>(groups: &[Group<C>], seed: u64, number: usize) -> (usize, C) {
    let cycle: usize = groups.iter().map(|group| group.weight).sum();
    let mut place = number % cycle;
    let mut chosen = 0;
    while place >= groups[chosen].weight {
        place -= groups[chosen].weight;
        chosen += 1;
    }
    let turn = number / cycle * groups[chosen].weight + place;
    let mut random = Random::for_case(seed, number as u64);
    (chosen, (groups[chosen].make)(&mut random, turn))
}
