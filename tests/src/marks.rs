//! Exchange tables of any contents, as the best table takes them: which sets are marked.

use crate::random::Random;

/// How many of 64 sets are marked: none, few, half of them, all.
pub const DENSITIES: [usize; 6] = [0, 1, 4, 8, 32, 64];

/// Marks also with no bit in their low or in their high byte.
pub fn random_mark(random: &mut Random) -> u16 {
    let any = random.number() as u16;
    random.pick(&[1, 0x0100, 0x8000, 0xFFFF, any | 4])
}

pub fn marks_of_density(random: &mut Random, entries: usize, of_64: usize) -> Vec<u16> {
    let mark = |_| {
        let marked = random.below(64) < of_64;
        u16::from(marked) * random_mark(random)
    };
    (0..entries).map(mark).collect()
}

/// Nothing, everything or some sets marked.
pub fn random_marks(random: &mut Random, entries: usize) -> Vec<u16> {
    let of_64 = random.pick(&DENSITIES);
    marks_of_density(random, entries, of_64)
}

/// Just the sets of which this holds.
pub fn marks_where(places: usize, is_marked: impl Fn(usize) -> bool) -> Vec<u16> {
    let mark = |set| u16::from(is_marked(set));
    (0..1 << places).map(mark).collect()
}
