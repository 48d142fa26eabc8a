//! The rows of the program `tariff_rows`, which runs the tariff's functions on
//! stored numbers.
//!
//! `tables` writes the program's tables, `stdout` prints the lines that it has
//! to print. Every expected number is the model's.

#[path = "tariff_rows/evidence.rs"]
mod evidence;
#[path = "tariff_rows/limits.rs"]
mod limits;
#[path = "tariff_rows/loads.rs"]
mod loads;
#[path = "tariff_rows/netting.rs"]
mod netting;
#[path = "tariff_rows/settings.rs"]
mod settings;
#[path = "tariff_rows/step.rs"]
mod step;
#[path = "tariff_rows/table.rs"]
mod table;
#[path = "tariff_rows/transfers.rs"]
mod transfers;

use std::path::Path;

/// Each table file of the program, by name, with its text.
pub fn tables() -> Vec<(&'static str, String)> {
    let mut class_lines = table::LineTables::new();
    vec![
        ("load_rows.rt", loads::tables()),
        ("limit_rows.rt", limits::tables()),
        ("evidence_rows.rt", evidence::tables()),
        ("netting_rows.rt", netting::tables(&mut class_lines)),
        ("transfer_rows.rt", transfers::tables(&mut class_lines)),
        ("class_lines.rt", class_lines.text()),
    ]
}

/// What the program has to print, a line for each row.
pub fn stdout() -> String {
    let groups = [
        loads::lines(),
        limits::lines(),
        evidence::lines(),
        netting::lines(),
        transfers::lines(),
    ];
    let lines = groups.into_iter().flatten();
    lines.map(|line| line + "\n").collect()
}

fn main() {
    match std::env::args().nth(1).as_deref() {
        Some("tables") => {
            let src = Path::new(env!("CARGO_MANIFEST_DIR")).join("../crates/tariff_rows/src");
            for (name, text) in tables() {
                std::fs::write(src.join(name), text).expect("a table file");
            }
        }
        Some("stdout") => print!("{}", stdout()),
        _ => eprintln!("tariff_rows tables | tariff_rows stdout"),
    }
}
