//! Columns of eight records, and what a migration makes of them.

use super::netting::class_line;
use super::table::{file, line, LineTables, Table};
use model::generate::Random;
use model::sizes::{MAX_HOLDERS, MAX_KW};
use model::{rules, ClassLine};

type Column = [u64; MAX_HOLDERS];

struct Row {
    about: &'static str,
    column: Column,
    load: Column,
    lines: Vec<ClassLine>,
}

/// Lines that move whole kW, as loser, gainer and m.
fn transfers(list: &[(u64, u64, u64)]) -> Vec<ClassLine> {
    let line = |&(from, to, kw)| class_line(from, to, kw, 1_000);
    list.iter().map(line).collect()
}

fn rows() -> Vec<Row> {
    let mut rows = edges();
    let mut random = Random::new(8);
    rows.extend((0..24).map(|_| random_rows(&mut random)));
    for row in &rows {
        let transfers = rules::netted(&row.lines).expect("lines that are fit");
        assert!(transfers.iter().all(|&(_, _, m)| m <= MAX_KW));
    }
    rows
}

fn edges() -> Vec<Row> {
    let row = |about, column, load, list: &[(u64, u64, u64)]| Row {
        about,
        column,
        load,
        lines: transfers(list),
    };
    let held = [100, 0, 0, 0, 0, 0, 0, 0];
    let kilo = [1_000; MAX_HOLDERS];
    let most = [MAX_KW; MAX_HOLDERS];
    let steps = [10, 20, 30, 40, 50, 60, 70, 80];
    let ring = [(0, 1, 100), (1, 2, 200), (2, 0, 300)];
    let to_all: Vec<_> = (1..8).map(|to| (0, to, 142)).collect();
    let from_all: Vec<_> = (1..8).map(|from| (from, 0, 1_000)).collect();
    let round: Vec<_> = (0..8).map(|k| (k, (k + 3) % 8, 999)).collect();
    vec![
        row("no line", steps, kilo, &[]),
        row("no line and no load", steps, [0; MAX_HOLDERS], &[]),
        row("marked case 8", held, kilo, &[(0, 1, 500), (0, 2, 500)]),
        row(
            "marked case 9",
            [1, 0, 0, 0, 0, 0, 0, 0],
            kilo,
            &[(0, 1, 999)],
        ),
        row("the whole load", held, kilo, &[(0, 1, 1_000)]),
        row("1 kW of the load", held, kilo, &[(0, 7, 1)]),
        row("a loser that has nothing", held, kilo, &[(1, 0, 1_000)]),
        row(
            "no load but the loser's",
            steps,
            [0, 9, 0, 0, 0, 0, 0, 0],
            &[(1, 2, 9)],
        ),
        row("a ring of three", steps, kilo, &ring),
        row(
            "a ring that moves all",
            steps,
            [0, 0, 0, 5, 5, 5, 0, 0],
            &[(3, 4, 5), (4, 5, 5), (5, 3, 5)],
        ),
        row("to seven gainers", steps, kilo, &to_all),
        row("from seven losers", steps, kilo, &from_all),
        row("every holder loses and gains", steps, kilo, &round),
        row(
            "the largest records",
            most,
            kilo,
            &[(0, 1, 999), (1, 2, 1_000)],
        ),
        row(
            "the largest of all",
            most,
            most,
            &[(0, 1, 9_999_999), (7, 0, 9_999_999)],
        ),
        row(
            "thirds",
            [2; MAX_HOLDERS],
            [3; MAX_HOLDERS],
            &[(0, 1, 1), (0, 2, 1), (0, 3, 1)],
        ),
        row(
            "netted before it moves",
            steps,
            kilo,
            &[(0, 1, 500), (1, 0, 300)],
        ),
    ]
}

/// Lines between any holders; each load is what its holder loses and now and
/// then more.
fn random_rows(random: &mut Random) -> Row {
    let mut list = Vec::new();
    for _ in 0..random.between(1, 7) {
        let from = random.up_to(7);
        let to = (from + random.between(1, 7)) % 8;
        list.push((from, to, random.up_to(500)));
    }
    let mut lines = transfers(&list);
    for line in &mut lines {
        line.watts += random.up_to(999);
    }
    let mut load: Column = [0; MAX_HOLDERS];
    for (loser, _, m) in rules::netted(&lines).expect("lines that are fit") {
        load[loser] += m;
    }
    for kw in &mut load {
        *kw += if random.one_in(3) {
            0
        } else {
            random.up_to(2_000)
        };
    }
    let ceiling = random.select(&[9, 4_000, MAX_KW]);
    Row {
        about: "drawn",
        column: std::array::from_fn(|_| random.up_to(ceiling)),
        load,
        lines,
    }
}

/// What the program prints: for each row what each holder gives, and the new
/// column.
pub fn lines() -> Vec<String> {
    let both = |row: &Row| {
        let (column, load) = (&row.column, &row.load);
        let given: Column = std::array::from_fn(|holder| {
            column[holder] - rules::kept(column, load, &row.lines, holder)
        });
        let after = rules::transferred(column, load, &row.lines);
        let after = after.expect("a migration that cause 9 does not refuse");
        [line("given", &given), line("transfer", &after)]
    };
    rows().iter().flat_map(both).collect()
}

/// The table file; the class lines go into tables of their own.
pub fn tables(class_lines: &mut LineTables) -> String {
    let rows = rows();
    let mut table = Table::new(
        "ROWS",
        "Of each row: where its class lines start, and how many it has.",
    );
    let mut columns = Table::new("COLUMNS", "Of each row: the records of the eight holders.");
    let mut loads = Table::new("LOADS", "Of each row: the loads of the eight holders.");
    for (k, row) in rows.iter().enumerate() {
        let start = class_lines.push(format!("transfers, row {k}"), &row.lines);
        table.push(
            format!("{k}: {}", row.about),
            vec![start, row.lines.len() as u64],
        );
        columns.push(format!("row {k}"), row.column.to_vec());
        loads.push(format!("row {k}"), row.load.to_vec());
    }
    let about = "Columns of records, loads, and the class lines of a migration.";
    file(about, &[table, columns, loads])
}
