//! The settings of rows: sets chosen for what they show, and drawn ones.

use super::table::Table;
use model::generate::Random;
use model::{Fraction, Settings};

/// A load that a numerator of 1,000 takes to just below 2^64.
pub const LARGEST_LOAD: u64 = 1 << 54;

/// Settings from six pairs.
fn set(pairs: [(u64, u64); 6]) -> Settings {
    Settings::from_order(pairs.map(|(numerator, denominator)| Fraction {
        numerator,
        denominator,
    }))
}

/// Sets by what they show. But for the first two no two pairs of one are the
/// same, so that a pair read from another's place gives another number.
pub fn chosen() -> Vec<(&'static str, Settings)> {
    let named = |name, pairs| (name, set(pairs));
    vec![
        named("every pair 0/1", [(0, 1); 6]),
        named("every pair 1,000/1,000", [(1_000, 1_000); 6]),
        named(
            "P least",
            [(1, 2), (9, 19), (1, 100), (1, 7), (1, 10), (3, 10)],
        ),
        named(
            "last year least",
            [(9, 10), (8, 9), (1, 50), (1, 20), (2, 7), (1, 1)],
        ),
        named(
            "sixth least",
            [(1, 1), (999, 1_000), (3, 7), (2, 3), (1, 8), (1, 4)],
        ),
        named(
            "sixth below fifth",
            [(5, 7), (7, 10), (1, 3), (1, 1), (5, 9), (2, 7)],
        ),
        named(
            "thousandths",
            [
                (999, 1_000),
                (998, 1_000),
                (1, 1_000),
                (996, 1_000),
                (2, 1_000),
                (997, 1_000),
            ],
        ),
    ]
}

/// Any legal set.
pub fn drawn(random: &mut Random) -> Settings {
    let pair = |random: &mut Random| {
        let any = random.between(1, 1_000);
        let denominator = random.select(&[1, 2, 3, 7, 50, 200, 1_000, any]);
        (random.up_to(denominator), denominator)
    };
    set(std::array::from_fn(|_| pair(random)))
}

/// The sets of settings that the rows of a table file have, each once.
pub struct Sets {
    sets: Vec<Settings>,
}

impl Sets {
    pub fn new() -> Sets {
        Sets { sets: Vec::new() }
    }

    /// Where the twelve numbers of some settings stand in the table.
    pub fn place(&mut self, settings: &Settings) -> u64 {
        let known = self.sets.iter().position(|set| set == settings);
        let place = known.unwrap_or_else(|| {
            self.sets.push(*settings);
            self.sets.len() - 1
        });
        12 * place as u64
    }

    pub fn table(&self) -> Table {
        let about = "Of each set of settings: its twelve numbers, numerator before denominator.";
        let mut table = Table::new("SETS", about);
        for (k, set) in self.sets.iter().enumerate() {
            table.push(format!("set {k}"), set.numbers().to_vec());
        }
        table
    }
}
