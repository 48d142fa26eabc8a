//! Block lists, and the load posted or the refusal.

use super::settings::{chosen, drawn, Sets};
use super::table::{file, line, Table};
use model::generate::Random;
use model::sizes::{MAX_HOURS, MAX_KW};
use model::{rules, Block, Fraction, Settings};

struct Row {
    about: String,
    blocks: Vec<Block>,
    hours: u64,
    contract: u64,
    /// How many of the blocks' first hours, hours and kW are lent.
    lent: [usize; 3],
    settings: Settings,
}

impl Row {
    fn new(about: impl Into<String>, hours: u64, blocks: &[(u64, u64, u64)]) -> Row {
        let blocks: Vec<Block> = blocks
            .iter()
            .map(|&(first, length, kw)| Block { first, length, kw })
            .collect();
        Row {
            about: about.into(),
            lent: [blocks.len(); 3],
            blocks,
            hours,
            contract: 0,
            settings: Settings::PRESENT,
        }
    }

    /// Blocks one after another from hour 0 on.
    fn run(about: impl Into<String>, hours: u64, blocks: &[(u64, u64)]) -> Row {
        let mut first = 0;
        let mut placed = Vec::new();
        for &(length, kw) in blocks {
            placed.push((first, length, kw));
            first += length;
        }
        Row::new(about, hours, &placed)
    }

    fn contract(self, contract: u64) -> Row {
        Row { contract, ..self }
    }

    fn lent(self, lent: [usize; 3]) -> Row {
        Row { lent, ..self }
    }

    fn settings(self, settings: Settings) -> Row {
        Row { settings, ..self }
    }

    /// The load posted or the refusal, by the model.
    fn answer(&self) -> Result<u64, u64> {
        if self.lent == [self.blocks.len(); 3] {
            rules::posted(&self.settings, &self.blocks, self.hours, self.contract)
        } else {
            Err(answer_to_script(&self.script()))
        }
    }

    /// The row as a script, in which a block lacks the numbers that are not lent.
    fn script(&self) -> String {
        let (contract, hours) = (self.contract, self.hours);
        let count = self.lent.iter().max().unwrap_or(&0);
        let mut script = String::from("book,1,0,1,0\nholder,1\nsink,1,0\n");
        script += &format!("load,0,0,0,{contract},{hours},{count}\n");
        for (k, block) in self.blocks[..*count].iter().enumerate() {
            script += "block";
            let numbers = [block.first, block.length, block.kw];
            for (number, lent) in numbers.iter().zip(self.lent) {
                if k < lent {
                    script += &format!(",{number}");
                }
            }
            script += "\n";
        }
        script
    }
}

/// The number of the refusal that a script ends with.
fn answer_to_script(script: &str) -> u64 {
    let answers = model::answers(script.as_bytes()).expect("a script within its limits");
    let answers = String::from_utf8(answers).expect("answers are ASCII");
    let last = answers.lines().last().and_then(|l| l.strip_prefix("no,"));
    last.expect("a refusal").parse().expect("its number")
}

fn rows() -> Vec<Row> {
    let mut rows = Vec::new();
    rows.extend(sizes());
    rows.extend(half_percent_edges());
    rows.extend(missing_edges());
    rows.extend(broken());
    rows.extend(equal_and_zero());
    rows.extend(contracts());
    rows.extend(huge());
    rows.extend(unequal());
    let mut random = Random::new(2_014);
    rows.extend((0..30).map(|_| random_rows(&mut random)));
    for (name, settings) in chosen() {
        rows.extend(edges_of_settings(name, settings));
    }
    for _ in 0..15 {
        let settings = drawn(&mut random);
        let row = random_rows(&mut random);
        rows.push(row.settings(settings));
    }
    rows
}

fn sizes() -> Vec<Row> {
    vec![
        Row::new("no block, n = 1", 1, &[]),
        Row::new("no block, n = 2,208", MAX_HOURS, &[]),
        Row::run("one hour, n = 1", 1, &[(1, 7)]),
        Row::run("one hour, n = 2", 2, &[(1, 7)]),
        Row::run("one hour of 50", 50, &[(1, 7)]),
        Row::run("one block, n = 2,208", MAX_HOURS, &[(MAX_HOURS, 7)]),
        Row::run("the largest kW", MAX_HOURS, &[(MAX_HOURS, MAX_KW)]),
        Row::run("three blocks of one hour", 3, &[(1, 5), (1, 9), (1, 7)]),
        Row::run("marked case 1", 400, &[(398, 1_000), (2, 5_000)]),
        Row::run("marked case 2", 400, &[(397, 1_000), (3, 5_000)]),
    ]
}

/// Exactly as many hours above as may be, and one more, with the hours above
/// last, first, and in blocks of one hour.
fn half_percent_edges() -> Vec<Row> {
    let mut rows = Vec::new();
    for present in [199, 200, 201, 399, 400, 401, 2_199, 2_200, MAX_HOURS] {
        for above in [present / 200, present / 200 + 1] {
            let low = (present - above, 1_000);
            let about = format!("{above} of {present} hours above");
            let high = Some((above, 5_000)).filter(|_| above > 0);
            let last: Vec<_> = std::iter::once(low).chain(high).collect();
            rows.push(Row::run(about, present, &last));
        }
    }
    for above in [11, 12] {
        let about = format!("{above} of 2,208 hours above, first");
        let blocks = [(above, 5_000), (MAX_HOURS - above, 1_000)];
        rows.push(Row::run(about, MAX_HOURS, &blocks));
        let steps: Vec<_> = (0..above).map(|k| (1, 9_000 - 100 * k)).collect();
        let rest = [(MAX_HOURS - above, 1_000)];
        let about = format!("{above} of 2,208 hours above, each at a kW of its own");
        rows.push(Row::run(about, MAX_HOURS, &[&steps[..], &rest].concat()));
    }
    rows.push(Row::run(
        "one hour above a middle kW",
        200,
        &[(1, 9), (1, 8), (198, 7)],
    ));
    rows.push(Row::run(
        "two hours above two kW",
        400,
        &[(1, 8), (398, 7), (1, 9)],
    ));
    rows
}

/// One hour in 50 missing, and one more, at the end, at the start and between.
fn missing_edges() -> Vec<Row> {
    let mut rows = Vec::new();
    let edges = [(49, 1), (50, 1), (50, 2), (100, 2), (100, 3)];
    for (n, missing) in edges.into_iter().chain([(MAX_HOURS, 44), (MAX_HOURS, 45)]) {
        let about = |place: &str| format!("{missing} of {n} hours missing {place}");
        let present = n - missing;
        rows.push(Row::new(about("last"), n, &[(0, present, 70)]));
        rows.push(Row::new(about("first"), n, &[(missing, present, 70)]));
        let between = [(0, 10, 70), (10 + missing, present - 10, 60)];
        rows.push(Row::new(about("between"), n, &between));
    }
    rows
}

/// As many hours above as the third pair lets, and one more; as many missing as
/// the fourth lets, and one more, the third pair then being of the hours that
/// are present.
fn edges_of_settings(name: &str, settings: Settings) -> Vec<Row> {
    let part = |pair: Fraction, hours: u64| hours * pair.numerator / pair.denominator;
    let mut rows = Vec::new();
    for hours in [13, 400] {
        let most = part(settings.exceedance, hours);
        for above in (most..=most + 1).filter(|&above| above > 0 && above < hours) {
            let about = format!("{name}, {above} of {hours} hours above");
            let blocks = [(hours - above, 1_000), (above, 5_000)];
            rows.push(Row::run(about, hours, &blocks));
        }
        let most = part(settings.missing, hours);
        for missing in (most..=most + 1).filter(|&missing| missing > 0 && missing < hours) {
            let about = format!("{name}, {missing} of {hours} hours missing");
            let present = hours - missing;
            let above = part(settings.exceedance, present) + 1;
            let mut blocks = vec![(missing, present, 1_000)];
            if above < present {
                blocks[0].1 -= above;
                blocks.push((hours - above, above, 5_000));
            }
            rows.push(Row::new(about, hours, &blocks));
        }
    }
    rows.push(Row::run(format!("{name}, broken"), 10, &[(11, 1)]));
    rows.into_iter().map(|row| row.settings(settings)).collect()
}

fn broken() -> Vec<Row> {
    let most = u64::MAX;
    vec![
        Row::new("one hour in two blocks", 10, &[(0, 6, 1), (5, 5, 2)]),
        Row::new("the same hours twice", 10, &[(0, 10, 1), (0, 10, 1)]),
        Row::new("descending", 10, &[(5, 5, 1), (0, 5, 2)]),
        Row::new("no hour", 10, &[(0, 0, 1)]),
        Row::new("no hour, after all hours", 10, &[(0, 10, 1), (10, 0, 1)]),
        Row::new("no hour, between", 10, &[(0, 5, 1), (5, 0, 1), (5, 5, 1)]),
        Row::new("past n", 10, &[(0, 11, 1)]),
        Row::new("past n in the second block", 10, &[(0, 9, 1), (9, 2, 1)]),
        Row::new("from n on", 10, &[(10, 1, 1)]),
        Row::new("from beyond n on", 10, &[(11, 1, 1)]),
        Row::new("n = 0", 0, &[(0, 1, 1)]),
        Row::new("broken and hours missing", 100, &[(0, 5, 1), (4, 5, 1)]),
        Row::new("the last first hour there is", 10, &[(most, 1, 1)]),
        Row::new("the most hours", 10, &[(0, most, 1)]),
        Row::new("the most of both", 10, &[(most, most, 1)]),
        Row::new("an end that wraps to 1", 10, &[(most, 2, 1)]),
        Row::new("a second end that wraps", 10, &[(0, 9, 1), (9, most, 1)]),
    ]
}

fn equal_and_zero() -> Vec<Row> {
    vec![
        Row::run("equal kW", 400, &[(100, 8), (200, 8), (100, 8)]),
        Row::run("equal kW above", 400, &[(1, 9), (398, 8), (1, 9)]),
        Row::run("equal kW above, too many", 400, &[(1, 9), (397, 8), (2, 9)]),
        Row::run("equal kW below", 400, &[(199, 3), (2, 9), (199, 3)]),
        Row::run("0 kW", 5, &[(5, 0)]),
        Row::run("0 kW and more", 5, &[(4, 0), (1, 3)]),
        Row::run("0 kW and seldom more", 200, &[(199, 0), (1, 3)]),
        Row::run("0 kW in two blocks", 2, &[(1, 0), (1, 0)]),
    ]
}

fn contracts() -> Vec<Row> {
    let day = |about: &str| Row::run(about, 24, &[(24, 1_000)]);
    let two = |about: &str| Row::run(about, 400, &[(398, 1_000), (2, 5_000)]);
    vec![
        day("contract 999").contract(999),
        day("contract as the metric").contract(1_000),
        day("contract 1,001").contract(1_001),
        day("marked case 4").contract(1_200),
        two("contract between the two kW").contract(3_000),
        two("the largest contract in range").contract(MAX_KW),
        day("the largest contract").contract(u64::MAX),
        Row::run("all comes off", 1, &[(1, MAX_KW)]).contract(MAX_KW),
        Row::run("all but 1 comes off", 1, &[(1, MAX_KW)]).contract(MAX_KW - 1),
        Row::new("contract and no block", 1, &[]).contract(5),
        Row::new("contract and hours missing", 10, &[(0, 5, 9)]).contract(5),
    ]
}

/// Numbers far beyond their ranges: the functions take any.
fn huge() -> Vec<Row> {
    let (most, half) = (u64::MAX, 1 << 63);
    let wide = 1 << 57;
    vec![
        Row::run("the largest n and kW", most, &[(most, most)]),
        Row::run("two halves", most, &[(half, 5), (half - 1, 9)]),
        Row::run(
            "half a percent of the largest n",
            most,
            &[(most - most / 200, 5), (most / 200, most)],
        ),
        Row::run(
            "an hour more than that",
            most,
            &[(most - most / 200 - 1, 5), (most / 200 + 1, most)],
        ),
        Row::run("the largest kW of one hour", 1, &[(1, most)]).contract(most - 1),
        Row::new(
            "one in 50 of 2^57 missing",
            wide,
            &[(wide / 50, wide - wide / 50, 3)],
        ),
        Row::new(
            "one hour more missing",
            wide,
            &[(wide / 50 + 1, wide - wide / 50 - 1, 3)],
        ),
        Row::new("n above 2,208", 2_209, &[(0, 2_209, MAX_KW + 1)]),
    ]
}

fn unequal() -> Vec<Row> {
    let two = |about: &str| Row::run(about, 400, &[(398, 1_000), (2, 5_000)]);
    vec![
        two("one kW short").lent([2, 2, 1]),
        two("one length short").lent([2, 1, 2]),
        two("one first hour short").lent([1, 2, 2]),
        two("no kW").lent([2, 2, 0]),
        two("first hours alone").lent([2, 0, 0]),
        two("kW alone").lent([0, 0, 2]),
        two("each of another length").lent([2, 1, 0]),
    ]
}

/// Blocks in order with gaps here and there, few different kW, now and then
/// a fault.
fn random_rows(random: &mut Random) -> Row {
    let hours = random.select(&[200, 300, 700, 744, MAX_HOURS]);
    let count = random.between(1, 9);
    let ceiling = random.select(&[3, 50, MAX_KW]);
    let mut blocks = Vec::new();
    let mut from = random.up_to(2);
    for k in 0..count {
        let left = hours - from;
        let length = match k + 1 == count {
            true => left - random.up_to(3),
            false => random.select(&[1, 2, 3, left / 2]).min(left / 2),
        };
        blocks.push((from, length, random.up_to(ceiling)));
        from += length + if random.one_in(3) { 1 } else { 0 };
        from = from.min(hours - 4);
    }
    if random.one_in(8) {
        let k = random.below(blocks.len());
        blocks[k].1 += random.up_to(2);
    }
    let contract = if random.one_in(2) {
        0
    } else {
        random.up_to(ceiling)
    };
    Row::new("drawn", hours, &blocks).contract(contract)
}

/// What the program prints.
pub fn lines() -> Vec<String> {
    let answers = rows().into_iter().map(|row| row.answer());
    answers
        .map(|answer| match answer {
            Ok(kw) => line("load", &[kw]),
            Err(number) => line("load,no", &[number]),
        })
        .collect()
}

/// The table file.
pub fn tables() -> String {
    let rows = rows();
    let mut table = Table::new(
        "ROWS",
        "Of each row: n, the contract kW, where its blocks start, how many first hours, hours and kW are lent, and where its settings stand.",
    );
    let mut sets = Sets::new();
    let mut firsts = Table::new("FIRSTS", "The first hour of each block.");
    let mut hours = Table::new("HOURS", "Its hours.");
    let mut kws = Table::new("KWS", "Its kW.");
    for (k, row) in rows.iter().enumerate() {
        let mut numbers = vec![row.hours, row.contract, firsts.len()];
        numbers.extend(row.lent.map(|count| count as u64));
        numbers.push(sets.place(&row.settings));
        table.push(format!("{k}: {}", row.about), numbers);
        let blocks = row.blocks.iter();
        firsts.push(
            format!("row {k}"),
            blocks.clone().map(|b| b.first).collect(),
        );
        hours.push(
            format!("row {k}"),
            blocks.clone().map(|b| b.length).collect(),
        );
        kws.push(format!("row {k}"), blocks.map(|b| b.kw).collect());
    }
    let tables = [table, sets.table(), firsts, hours, kws];
    file("Block lists with n and a contract load.", &tables)
}
