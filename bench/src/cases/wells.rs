use crate::plain::measures::Measures;
use crate::plain::station::Station;

use super::random::Random;

/// How the four measures of a station hang together.
#[derive(Clone, Copy, Debug, PartialEq, Eq)]
pub enum Shape {
    Independent,
    /// A station that is good in one measure tends to be good in all.
    Correlated,
    /// A station that is good in one measure tends to be bad in others: most are beaten by few.
    AntiCorrelated,
}

pub const SHAPES: [Shape; 3] = [Shape::Independent, Shape::Correlated, Shape::AntiCorrelated];

/// How stations are numbered.
#[derive(Clone, Copy, Debug, PartialEq, Eq)]
pub enum Numbering {
    /// Rising, with small gaps, as a tester numbers them up a well.
    InTurn,
    /// From all over the range.
    Scattered,
    /// All with the same low bits, on which a table that goes by them does worst.
    Alike,
}

pub const NUMBERINGS: [Numbering; 3] = [Numbering::InTurn, Numbering::Scattered, Numbering::Alike];

impl Numbering {
    /// The i-th number, from 1. Numbers of different i differ.
    pub fn number(self, i: u32) -> u32 {
        match self {
            Numbering::InTurn => 4000 + 2 * i + scatter(i) % 2,
            Numbering::Scattered => scatter(i),
            Numbering::Alike => i << 16,
        }
    }
}

/// Each step has an inverse and takes 0 to 0 alone.
fn scatter(i: u32) -> u32 {
    let mut x = i;
    x = (x ^ x >> 16).wrapping_mul(0x21f0_aaad);
    x = (x ^ x >> 15).wrapping_mul(0x735a_2d97);
    x ^ x >> 15
}

/// Stations with measures up to `most`.
pub fn stations(
    random: &mut Random,
    count: usize,
    shape: Shape,
    numbering: Numbering,
    most: u16,
) -> Vec<Station> {
    (1..=count as u32)
        .map(|i| Station {
            number: numbering.number(i),
            at: measures(random, shape, most),
        })
        .collect()
}

fn measures(random: &mut Random, shape: Shape, most: u16) -> Measures {
    match shape {
        Shape::Independent => Measures(std::array::from_fn(|_| random.short(0, most))),
        Shape::Correlated => {
            let middle = random.short(0, most);
            let noise = most / 8;
            Measures(std::array::from_fn(|_| {
                random.short(
                    middle.saturating_sub(noise),
                    middle.saturating_add(noise).min(most),
                )
            }))
        }
        Shape::AntiCorrelated => {
            // near one sum, which is then moved from measure to measure
            let mut at = [mean(random, most); 4];
            for i in 0..4 {
                let j = (i + 1) % 4;
                let moved = random.short(0, at[i].min(most - at[j]));
                at[i] -= moved;
                at[j] += moved;
            }
            Measures(at)
        }
    }
}

/// Near half of the most.
fn mean(random: &mut Random, most: u16) -> u16 {
    let parts = 12;
    let sum: u32 = (0..parts).map(|_| u32::from(random.short(0, most))).sum();
    (sum / parts) as u16
}
