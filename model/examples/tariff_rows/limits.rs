//! Loads with their eligible quantities, and sums with their limits.

use super::settings::{chosen, drawn, Sets, LARGEST_LOAD};
use super::step;
use super::table::{file, line, Table};
use model::generate::Random;
use model::rules::{self, Sums};
use model::sizes::{MAX_KW, TIERS};
use model::{Settings, LONG_TERM_STEP};

/// A load so large that not much more than 3 times it fits 64 bits, which the
/// present settings ask for.
const HUGE: u64 = 1 << 62;

/// How many numbers a row has.
const WIDTH: u64 = 11;

struct Row {
    about: String,
    tier: u64,
    sums: Sums,
    settings: Settings,
}

fn row(about: &str, tier: u64, sums: Sums) -> Row {
    Row {
        about: about.to_string(),
        tier,
        sums,
        settings: Settings::PRESENT,
    }
}

impl Row {
    fn numbers(&self) -> Vec<u64> {
        let sums = &self.sums;
        let mut numbers = vec![self.tier, sums.load, sums.carried, sums.prior];
        numbers.extend(sums.season);
        numbers.extend([sums.before, 0, 0]);
        numbers
    }
}

/// Loads with the settings that their parts are asked for with.
fn loads() -> Vec<(u64, Settings)> {
    let present = present_loads().into_iter();
    let mut loads: Vec<_> = present.map(|load| (load, Settings::PRESENT)).collect();
    for (_, settings) in chosen() {
        for load in [1, 7, 13, 1_000, 1_009, MAX_KW, LARGEST_LOAD] {
            loads.push((load, settings));
        }
    }
    let mut random = Random::new(3_014);
    for _ in 0..10 {
        let most = random.select(&[20, 5_000, MAX_KW]);
        loads.push((random.up_to(most), drawn(&mut random)));
    }
    loads
}

fn present_loads() -> Vec<u64> {
    let mut loads: Vec<u64> = (0..=10).collect();
    loads.extend([
        700,
        999,
        1_000,
        1_001,
        1_002,
        MAX_KW - 1,
        MAX_KW,
        MAX_KW + 1,
    ]);
    loads.extend([8 * MAX_KW, HUGE - 3, HUGE - 2, HUGE - 1, HUGE]);
    loads
}

/// Every tier number there is.
fn tiers() -> std::ops::RangeInclusive<u64> {
    1..=TIERS as u64
}

/// Limits of a load-serving holder without evidence, with the present settings.
fn rows() -> Vec<Row> {
    let mut rows: Vec<Row> = tiers().flat_map(edges).collect();
    rows.extend(marked());
    let mut random = Random::new(36);
    for tier in tiers() {
        rows.extend((0..6).map(|_| row("drawn", tier, random_rows(&mut random))));
    }
    rows.extend(edges(LONG_TERM_STEP));
    rows
}

fn edges(tier: u64) -> Vec<Row> {
    let sums = |load, carried, prior, season, before| Sums {
        load,
        carried,
        prior,
        season,
        before,
    };
    let plenty = MAX_KW;
    let mut rows = vec![row("all 0", tier, Sums::default())];
    rows.extend((1..=10).map(|a| row("A alone", tier, sums(a, 0, plenty, [0; 3], 0))));
    let at = |about, carried, prior, season, before| {
        row(about, tier, sums(1_000, carried, prior, season, before))
    };
    let huge = sums(HUGE, 1 << 59, 1 << 61, [1 << 57, 1 << 56, 1 << 55], 1 << 54);
    rows.extend([
        at("prior less than P", 10, 300, [0; 3], 0),
        at("LT as large as prior", 300, 300, [0; 3], 0),
        at("LT as large as P", 500, plenty, [0; 3], 0),
        at("LT above A", 1_001, plenty, [0; 3], 0),
        at("awards in every tier", 5, plenty, [10, 20, 40], 80),
        at("awards and LT, 1 below A", 899, 999, [10, 20, 40], 30),
        at("awards and LT as A", 900, 1_000, [10, 20, 40], 30),
        at("awards above A", 0, plenty, [400, 400, 400], 0),
        at("before above the rest", 0, plenty, [100, 100, 100], 701),
        row("huge", tier, huge),
    ]);
    rows
}

fn marked() -> Vec<Row> {
    let case = |load, carried, prior, tier1, before| Sums {
        load,
        carried,
        prior,
        season: [tier1, 0, 0],
        before,
    };
    vec![
        row("marked case 1", 1, case(1_000, 100, 300, 0, 0)),
        row("marked case 5", 1, case(3, 0, 9, 0, 0)),
        row("marked case 7", 2, case(1_000, 100, 300, 150, 0)),
        row("marked case 12", 4, case(700, 100, 0, 650, 0)),
        row("case 12 with less carried", 5, case(700, 40, 0, 650, 1)),
    ]
}

fn random_rows(random: &mut Random) -> Sums {
    let most = random.select(&[20, 5_000, MAX_KW]);
    let load = random.up_to(most);
    let part = load / 4 + 1;
    Sums {
        load,
        carried: random.up_to(part),
        prior: random.up_to(load),
        season: std::array::from_fn(|_| random.up_to(part)),
        before: random.up_to(part),
    }
}

/// The same with other settings.
fn rows_by_settings() -> Vec<Row> {
    let mut rows: Vec<Row> = chosen()
        .into_iter()
        .flat_map(|(name, settings)| edges_of_settings(name, settings))
        .collect();
    let mut random = Random::new(3_036);
    for tier in [1, 1, 1, 2, 3, 4, 9] {
        for _ in 0..4 {
            let sums = random_rows(&mut random);
            let settings = drawn(&mut random);
            rows.push(Row {
                settings,
                ..row("drawn settings", tier, sums)
            });
        }
    }
    rows
}

/// Each of tier 1's three strictly the least where the settings let it be, loads
/// that leave a rest, and the tiers that no cap of tier 1 holds.
fn edges_of_settings(name: &str, settings: Settings) -> Vec<Row> {
    let sums = |load, carried, prior, tier1| Sums {
        load,
        carried,
        prior,
        season: [tier1, 0, 0],
        before: tier1,
    };
    let cases = [
        (1, sums(1_000, 0, MAX_KW, 0)),
        (1, sums(1_000, 40, 280, 0)),
        (1, sums(1_000, 40, 90, 0)),
        (1, sums(13, 1, 12, 0)),
        (1, sums(LARGEST_LOAD, 1, 1 << 61, 0)),
        (2, sums(1_000, 40, 280, 10)),
        (2, sums(13, 0, 12, 1)),
        (3, sums(1_000, 40, 280, 10)),
        (3, sums(13, 0, 12, 1)),
        (3, sums(LARGEST_LOAD, 40, 280, 10)),
        (4, sums(1_000, 40, 280, 10)),
        (7, sums(1_000, 40, 280, 10)),
    ];
    let with_settings = |(tier, sums)| Row {
        settings,
        ..row(name, tier, sums)
    };
    cases.map(with_settings).into()
}

/// The line of a row.
fn limit_line(tier: u64, kw: u64) -> String {
    line("limit", &[tier, rules::term_of(tier) as u64, kw])
}

/// All rows in their order: those with the present settings, then the others.
fn row_groups() -> [(Vec<Row>, step::Rows); 2] {
    [
        (rows(), step::rows()),
        (rows_by_settings(), step::rows_by_settings()),
    ]
}

/// What the program prints.
pub fn lines() -> Vec<String> {
    let eligible = loads().into_iter().map(|(load, settings)| {
        let parts = [
            rules::seasonal_eligible(&settings, load),
            rules::priority_eligible(&settings, load),
            rules::eligible_without_evidence(&settings, load),
            rules::eligible_with_evidence(&settings, load),
        ];
        line("eligible", &parts)
    });
    let mut lines: Vec<String> = eligible.collect();
    for (rows, in_step) in row_groups() {
        for row in rows {
            let kw = rules::limit(&row.settings, row.tier, &row.sums);
            lines.push(limit_line(row.tier, kw));
        }
        for (_, step) in in_step {
            lines.push(limit_line(LONG_TERM_STEP, step.limit()));
        }
    }
    lines
}

/// The table file.
pub fn tables() -> String {
    let mut sets = Sets::new();
    let mut eligible = Table::new(
        "LOADS",
        "Of each row: a load whose S and P, and parts without and with ten-year evidence, are asked for, and where its settings stand.",
    );
    for (k, (load, settings)) in loads().into_iter().enumerate() {
        eligible.push(k.to_string(), vec![load, sets.place(&settings)]);
    }
    let mut table = Table::new(
        "ROWS",
        "Of each row: the tier, A, LT, the sum of prior's a, T1, T2, T3, the awards in the tier before, E, 1 for an OBAALSE, and where its settings stand.",
    );
    let mut push = |about: String, mut numbers: Vec<u64>, settings: &Settings| {
        let place = table.len() / WIDTH;
        numbers.push(sets.place(settings));
        table.push(format!("{place}: {about}"), numbers);
    };
    for (rows, in_step) in row_groups() {
        for row in rows {
            let about = format!("tier {}, {}", row.tier, row.about);
            push(about, row.numbers(), &row.settings);
        }
        for (about, step) in in_step {
            let about = format!("Long Term step, {about}");
            push(about, step.numbers(), &step.settings);
        }
    }
    file(
        "Loads, and the sums that limits are made of.",
        &[eligible, table, sets.table()],
    )
}
