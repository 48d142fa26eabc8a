//! The tables and the expected lines of the program `tariff_rows` are those that
//! the generator writes.

#[allow(dead_code)]
#[path = "../examples/tariff_rows.rs"]
mod tariff_rows;

use std::path::Path;

/// The text of a file of the program's crate.
fn of_the_crate(name: &str) -> String {
    let crate_ = Path::new(env!("CARGO_MANIFEST_DIR")).join("../crates/tariff_rows");
    let text = std::fs::read_to_string(crate_.join(name));
    text.unwrap_or_else(|error| panic!("{name}: {error}"))
}

/// Figures: each table file is as the generator writes it.
#[test]
fn tables_are_as_generated() {
    for (name, text) in tariff_rows::tables() {
        let file = of_the_crate(&format!("src/{name}"));
        assert!(file == text, "{name} is not as generated");
    }
}

/// Figures: the expected lines are the model's.
#[test]
fn expected_lines_are_the_models() {
    let (file, lines) = (of_the_crate("stdout"), tariff_rows::stdout());
    for (k, (line, expected)) in file.lines().zip(lines.lines()).enumerate() {
        assert_eq!(line, expected, "line {}", k + 1);
    }
    assert_eq!(file.len(), lines.len());
}

/// Figures: there are rows enough of every kind of line.
#[test]
fn every_kind_of_line_is_there() {
    let lines = tariff_rows::stdout();
    let count = |word: &str| {
        let of_kind = lines
            .lines()
            .filter(|line| line.split(',').next() == Some(word));
        of_kind.count()
    };
    for (word, least) in [
        ("load", 100),
        ("eligible", 20),
        ("limit", 100),
        ("evidence", 80),
        ("netting", 50),
        ("given", 40),
        ("transfer", 40),
    ] {
        assert!(count(word) >= least, "{word}");
    }
}

/// The numbers of a table of a file.
fn numbers(file: &str, table: &str) -> Vec<u64> {
    let start = file.find(&format!("pub const {table}: ")).expect(table);
    let lines = file[start..].lines().skip(1);
    let lines = lines.take_while(|line| *line != "];");
    let numbers = lines.flat_map(|line| line.trim().split(", "));
    let numbers = numbers.map(|number| number.trim_end_matches(','));
    numbers.filter_map(|number| number.parse().ok()).collect()
}

/// 02, 3/14: each row of loads and limits names legal settings by where they
/// stand, the present ones in some rows and a good many others.
#[test]
fn every_row_names_its_settings() {
    for (name, rows, width) in [
        ("load_rows.rt", "ROWS", 7),
        ("limit_rows.rt", "LOADS", 2),
        ("limit_rows.rt", "ROWS", 11),
    ] {
        let file = of_the_crate(&format!("src/{name}"));
        let (rows, sets) = (numbers(&file, rows), numbers(&file, "SETS"));
        assert_eq!(rows.len() % width, 0, "{name}");
        let places = rows.chunks(width).map(|row| row[width - 1] as usize);
        let mut of_rows: Vec<&[u64]> = places.map(|place| &sets[place..place + 12]).collect();
        for pair in of_rows.iter().flat_map(|set| set.chunks(2)) {
            assert!(pair[0] <= pair[1] && (1..=1_000).contains(&pair[1]));
        }
        assert!(of_rows.contains(&&model::Settings::PRESENT.numbers()[..]));
        of_rows.sort();
        of_rows.dedup();
        assert!(of_rows.len() > 15, "{name}: {} sets", of_rows.len());
    }
}
