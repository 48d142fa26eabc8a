//! Class lines, and the m of every pair that they move kW between.

use super::table::{file, line, LineTables, Table};
use model::generate::Random;
use model::sizes::{MAX_CLASS_LINES, MAX_HOLDERS, MAX_PER_CLASS};
use model::{rules, ClassLine};

/// What a row shows, and its class lines.
type Row = (&'static str, Vec<ClassLine>);

/// A line of class 1.
pub fn class_line(from: u64, to: u64, customers: u64, watts: u64) -> ClassLine {
    ClassLine {
        from,
        to,
        class: 1,
        customers,
        watts,
    }
}

fn rows() -> Vec<Row> {
    let mut rows = few_lines();
    rows.extend(ranges());
    rows.extend(many_lines());
    let mut random = Random::new(64);
    rows.extend((0..20).map(|_| ("drawn", random_rows(&mut random))));
    rows
}

fn few_lines() -> Vec<Row> {
    let of = |class: u64| ClassLine {
        class,
        ..class_line(2, 5, 3, 500)
    };
    vec![
        ("no line", vec![]),
        ("one line", vec![class_line(0, 1, 10, 2_500)]),
        ("999 W", vec![class_line(0, 1, 1, 999)]),
        ("1,000 W", vec![class_line(0, 1, 1, 1_000)]),
        ("no customers", vec![class_line(0, 1, 0, 5_000)]),
        ("no watts", vec![class_line(0, 1, 5_000, 0)]),
        ("the last pair", vec![class_line(7, 6, 4, 1_000)]),
        ("equal lines", vec![class_line(2, 1, 3, 500); 2]),
        ("three equal lines", vec![class_line(2, 1, 1, 999); 3]),
        ("every class", (1..=8).map(of).collect()),
        (
            "both ways",
            vec![class_line(0, 1, 9, 700), class_line(1, 0, 2, 800)],
        ),
        (
            "both ways, more back",
            vec![class_line(3, 4, 1, 1_999), class_line(4, 3, 9, 9_999)],
        ),
        (
            "both ways alike",
            vec![class_line(3, 4, 20, 50), class_line(4, 3, 50, 20)],
        ),
        (
            "marked case 10",
            vec![class_line(0, 1, 1, 1_500), class_line(1, 0, 1, 501)],
        ),
        (
            "1 W less back",
            vec![class_line(0, 1, 1, 1_500), class_line(1, 0, 1, 500)],
        ),
        (
            "rounded once",
            vec![class_line(0, 1, 1, 1_999), class_line(1, 0, 1, 1_000)],
        ),
        (
            "a ring of three",
            vec![
                class_line(0, 1, 2, 1_000),
                class_line(1, 2, 3, 1_000),
                class_line(2, 0, 4, 1_000),
            ],
        ),
        (
            "two gainers",
            vec![class_line(0, 1, 5, 1_000), class_line(0, 2, 5, 1_000)],
        ),
        (
            "two losers",
            vec![class_line(1, 0, 5, 1_000), class_line(2, 0, 6, 1_000)],
        ),
        ("to itself", vec![class_line(3, 3, 5, 1_000)]),
        (
            "to itself and on",
            vec![class_line(3, 3, 5, 1_000), class_line(3, 4, 2, 1_000)],
        ),
    ]
}

/// Each field at the end of its range and past it.
fn ranges() -> Vec<Row> {
    let good = class_line(0, 1, 1, 1_000);
    let class = |class| ClassLine { class, ..good };
    let (most, huge) = (MAX_PER_CLASS, u64::MAX);
    vec![
        ("holder 8 loses", vec![class_line(8, 1, 1, 1_000)]),
        ("holder 8 gains", vec![class_line(0, 8, 1, 1_000)]),
        (
            "the largest holders",
            vec![class_line(huge, huge, 1, 1_000)],
        ),
        (
            "holder 8 in the last line",
            vec![good, good, class_line(0, 8, 0, 0)],
        ),
        ("class 0", vec![class(0)]),
        ("class 8", vec![class(8)]),
        ("class 9", vec![class(9)]),
        ("the largest class", vec![good, class(huge)]),
        ("most customers", vec![class_line(0, 1, most, 1)]),
        ("a customer more", vec![class_line(0, 1, most + 1, 1)]),
        ("the largest customers", vec![class_line(0, 1, huge, 0)]),
        ("most watts", vec![class_line(0, 1, 1, most)]),
        ("a watt more", vec![class_line(0, 1, 1, most + 1)]),
        ("the largest watts", vec![class_line(0, 1, 0, huge)]),
        ("most of both", vec![class_line(0, 1, most, most)]),
    ]
}

fn many_lines() -> Vec<Row> {
    let most = class_line(0, 1, MAX_PER_CLASS, MAX_PER_CLASS);
    let (from, to) = (|k: u64| k % 8, |k: u64| (k + 1 + k / 8 % 7) % 8);
    let pairs = |k: u64| class_line(from(k), to(k), 10 + k, 1_000 + 7 * k);
    vec![
        ("64 of the largest lines", vec![most; MAX_CLASS_LINES]),
        ("65 lines", (0..65).map(pairs).collect()),
        ("64 lines", (0..64).map(pairs).collect()),
    ]
}

fn random_rows(random: &mut Random) -> Vec<ClassLine> {
    let holders = random.between(2, MAX_HOLDERS as u64);
    let count = random.between(2, 9);
    let most = random.select(&[40, 3_000]);
    let mut lines = Vec::new();
    for _ in 0..count {
        let from = random.up_to(holders - 1);
        let to = (from + random.between(1, holders - 1)) % holders;
        let class = random.between(1, 8);
        let watts = random.up_to(most);
        let line = class_line(from, to, random.up_to(most), watts);
        lines.push(ClassLine { class, ..line });
    }
    lines
}

/// What the program prints.
pub fn lines() -> Vec<String> {
    let answers = rows().into_iter().map(|(_, lines)| rules::netted(&lines));
    answers
        .map(|answer| match answer {
            Some(transfers) => {
                let fields = transfers
                    .iter()
                    .flat_map(|&(i, j, m)| [i as u64, j as u64, m]);
                line("netting", &fields.collect::<Vec<u64>>())
            }
            None => line("netting,no", &[]),
        })
        .collect()
}

/// The table file; the class lines go into tables of their own.
pub fn tables(class_lines: &mut LineTables) -> String {
    let rows = rows();
    let mut table = Table::new(
        "ROWS",
        "Of each row: where its class lines start, and how many it has.",
    );
    for (k, (about, lines)) in rows.iter().enumerate() {
        let start = class_lines.push(format!("netting, row {k}"), lines);
        table.push(format!("{k}: {about}"), vec![start, lines.len() as u64]);
    }
    file("Class lines to be netted.", &[table])
}
