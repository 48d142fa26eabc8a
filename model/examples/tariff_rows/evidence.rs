//! Evidence, with the kW that it gives in each term and as ten-year evidence.

use super::table::{file, line, Table};
use model::generate::Random;
use model::rules;
use model::sizes::{FULL_OWNERSHIP, MAX_KW};
use model::Verify;

/// Kind, capacity, right, first and last month.
type Unmarked = [u64; 5];
/// The same, and the ten-year mark.
type Row = [u64; 6];

fn rows() -> Vec<(&'static str, Row)> {
    let unmarked = unmarked().into_iter();
    let mut rows: Vec<_> = unmarked.map(|(about, row)| (about, mark(row, 0))).collect();
    rows.extend(marked());
    rows
}

fn mark([kind, capacity, right, first, last]: Unmarked, ten_year: u64) -> Row {
    [kind, capacity, right, first, last, ten_year]
}

fn unmarked() -> Vec<(&'static str, Unmarked)> {
    let mut rows = Vec::new();
    for kind in 0..=3 {
        rows.push(("whole", [kind, 1_000, 1_000, 1, 3]));
    }
    for capacity in [0, 1, 2, MAX_KW, MAX_KW + 1, u64::MAX] {
        rows.push(("capacity", [1, capacity, 1, 1, 3]));
        rows.push(("capacity", [1, capacity, FULL_OWNERSHIP, 1, 3]));
        rows.push(("capacity", [2, capacity, 1, 1, 3]));
        rows.push(("capacity", [2, capacity, capacity, 1, 3]));
    }
    for right in [
        0,
        1,
        9_999,
        FULL_OWNERSHIP,
        FULL_OWNERSHIP + 1,
        65_537,
        u64::MAX,
    ] {
        rows.push(("right", [1, 20_000, right, 1, 3]));
        rows.push(("right", [2, 20_000, right, 1, 3]));
    }
    for (capacity, right) in [(1_000, 3_333), (1_000, 3_339), (3, 3_333), (10_001, 9_999)] {
        rows.push(("rounded down", [1, capacity, right, 1, 3]));
    }
    for (capacity, right) in [(7, 7), (7, 8), (MAX_KW, MAX_KW), (MAX_KW, MAX_KW + 1)] {
        rows.push(("contract by its capacity", [2, capacity, right, 1, 3]));
    }
    for first in 0..=4 {
        for last in 0..=4 {
            rows.push(("months", [1 + (first + last) % 2, 500, 400, first, last]));
        }
    }
    rows.push(("the largest months", [1, 500, 400, 1, u64::MAX]));
    rows.push(("the largest months", [1, 500, 400, u64::MAX, u64::MAX]));
    rows.push(("the largest kind", [u64::MAX, 500, 400, 1, 3]));
    rows.push(("a kind of 2^32 + 1", [(1 << 32) + 1, 500, 400, 1, 3]));
    let mut random = Random::new(10_000);
    rows.extend((0..20).map(|_| ("drawn", random_rows(&mut random))));
    rows
}

/// Rows on both sides of what makes evidence ten-year: the mark, and the months.
fn marked() -> Vec<(&'static str, Row)> {
    let mut rows = Vec::new();
    for kind in [1, 2] {
        for ten_year in [0, 1, 2, (1 << 32) + 1, u64::MAX] {
            rows.push(("the mark", [kind, 500, 400, 1, 3, ten_year]));
        }
        for first in 0..=4 {
            for last in 0..=4 {
                rows.push(("marked, months", [kind, 500, 400, first, last, 1]));
            }
        }
    }
    for ten_year in [0, 1] {
        rows.push(("comes to 0", [1, 1, 9_999, 1, 3, ten_year]));
        rows.push((
            "comes to 0 in months 1 and 2",
            [1, 1, 9_999, 1, 2, ten_year],
        ));
        rows.push(("the largest", [1, MAX_KW, FULL_OWNERSHIP, 1, 3, ten_year]));
        rows.push(("the largest", [2, MAX_KW, MAX_KW, 1, 3, ten_year]));
    }
    rows.push(("marked, rounded down", [1, 1_000, 3_339, 1, 3, 1]));
    rows.push(("marked, no such kind", [3, 500, 400, 1, 3, 1]));
    rows.push(("marked, no capacity", [2, 0, 1, 1, 3, 1]));
    rows.push(("marked, above its capacity", [2, 7, 8, 1, 3, 1]));
    let mut random = Random::new(10_001);
    rows.extend((0..20).map(|_| {
        let row = random_rows(&mut random);
        ("drawn with a mark", mark(row, random.up_to(2)))
    }));
    rows
}

fn random_rows(random: &mut Random) -> Unmarked {
    let kind = random.between(1, 2);
    let capacity = random.up_to(MAX_KW);
    let right = match kind {
        1 => random.up_to(FULL_OWNERSHIP + 2_000),
        _ => random.up_to(capacity + capacity / 8),
    };
    let first = random.between(1, 3);
    [kind, capacity, right, first, random.between(first, 3)]
}

fn verify([kind, capacity, right, first_month, last_month, ten_year]: Row) -> Verify {
    Verify {
        holder: 0,
        source: 0,
        kind,
        capacity,
        right,
        first_month,
        last_month,
        ten_year,
    }
}

/// What the program prints.
pub fn lines() -> Vec<String> {
    let answer = |row| {
        let verify = verify(row);
        let entry = rules::entry(&verify)?;
        let by_term = rules::verified(&verify)?;
        let ten_year = if entry.is_ten_year() { by_term[0] } else { 0 };
        Ok([&[entry.evidence.kw()], &by_term[..], &[ten_year]].concat())
    };
    let answers = rows().into_iter().map(|(_, row)| answer(row));
    answers
        .map(|answer: Result<Vec<u64>, u64>| match answer {
            Ok(kw) => line("evidence", &kw),
            Err(number) => line("evidence,no", &[number]),
        })
        .collect()
}

/// The table file.
pub fn tables() -> String {
    let rows = rows();
    let mut table = Table::new(
        "ROWS",
        "Of each row: the kind, the capacity, the right, the first and the last month, and the ten-year mark.",
    );
    for (k, (about, row)) in rows.iter().enumerate() {
        table.push(format!("{k}: {about}"), row.to_vec());
    }
    file("Evidence as a holder brings it.", &[table])
}
