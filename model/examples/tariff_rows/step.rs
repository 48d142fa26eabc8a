//! Limits of the Long Term step, each asked of a book that has come to the step.

use super::settings::{chosen, drawn};
use model::generate::Random;
use model::opening::{DEFAULT_LAP, LSE, OBAALSE, SCHEDULING_POINT};
use model::rules::{eligible_with_evidence, eligible_without_evidence};
use model::sizes::{MAX_KW, MAX_SOURCES};
use model::{
    Block, Book, Call, Load, OnPath, Opening, Prior, Query, Settings, Verify, LONG_TERM_STEP,
};

/// One holder with one path, as it comes to the step.
#[derive(Clone, Copy, Default)]
pub struct Step {
    load: u64,
    carried: u64,
    prior: u64,
    tier1: u64,
    /// E: the kW of its ten-year evidence.
    ten_year: u64,
    obaalse: bool,
    pub settings: Settings,
}

/// Rows, each with what it is about.
pub type Rows = Vec<(&'static str, Step)>;

impl Step {
    /// The limit that the book answers in the step.
    pub fn limit(&self) -> u64 {
        let mut book = self.book();
        let mut call = |call| book.call(&call).expect("a call that is in order");
        let on_path = |kw| OnPath {
            holder: 0,
            path: 0,
            kw,
        };
        call(Call::Open { tier: 1 });
        if self.tier1 > 0 {
            call(Call::Nominate(on_path(self.tier1)));
            call(Call::Award(on_path(self.tier1)));
        }
        call(Call::Close);
        call(Call::Open {
            tier: LONG_TERM_STEP,
        });
        let limit = Query::Limit { holder: 0, sink: 0 };
        book.query(&limit).expect("a tier that is open")
    }

    /// The book with all that is posted before tier 1.
    fn book(&self) -> Book {
        let mut book = Book::open(&self.opening()).expect("an opening that keeps the rules");
        let mut call = |call| book.call(&call).expect("a posting that is in order");
        let (holder, path) = (0, 0);
        let block = [Block {
            first: 0,
            length: 1,
            kw: self.load,
        }];
        call(Call::Load(Load {
            holder,
            sink: 0,
            term: 0,
            contract: 0,
            hours: 1,
            blocks: &block,
        }));
        if self.carried > 0 {
            let kw = self.carried;
            call(Call::Carry(OnPath { holder, path, kw }));
        }
        if self.prior > 0 {
            call(Call::Prior(Prior {
                holder,
                path,
                allocated: self.prior,
                long_term: 0,
            }));
        }
        for verify in self.evidence() {
            call(Call::Verify(verify));
        }
        book
    }

    /// A contract of ten years at each source until they add to E.
    fn evidence(&self) -> Vec<Verify> {
        let mut left = self.ten_year;
        let mut contracts = Vec::new();
        while left > 0 {
            let kw = left.min(MAX_KW);
            contracts.push(Verify {
                holder: 0,
                source: contracts.len() as u64,
                kind: 2,
                capacity: kw,
                right: kw,
                first_month: 1,
                last_month: 3,
                ten_year: 1,
            });
            left -= kw;
        }
        contracts
    }

    fn opening(&self) -> Opening {
        let (holder, sink) = match self.obaalse {
            true => (OBAALSE, SCHEDULING_POINT),
            false => (LSE, DEFAULT_LAP),
        };
        Opening {
            holders: 1,
            sources: MAX_SOURCES as u64,
            sinks: 1,
            paths: 1,
            holder_kinds: vec![holder],
            sink_kinds: vec![sink],
            sink_parents: vec![0],
            path_sources: vec![0],
            path_sinks: vec![0],
            settings: self.settings,
        }
    }

    /// The numbers of a row of limits, the tier first.
    pub fn numbers(&self) -> Vec<u64> {
        let mut numbers = vec![LONG_TERM_STEP, self.load, self.carried];
        numbers.extend([self.prior, self.tier1, 0, 0, 0]);
        numbers.extend([self.ten_year, self.obaalse as u64]);
        numbers
    }
}

/// Rows with the present settings.
pub fn rows() -> Rows {
    let mut rows = Vec::new();
    for load in [0, 1, 4, 5, 9, 10, 1_000, 1_009, MAX_KW] {
        rows.extend(by_evidence(load));
    }
    for load in [10, 1_009, MAX_KW] {
        rows.extend(by_carried(load));
    }
    rows.extend(with_tier_1());
    let mut random = Random::new(1_014);
    rows.extend((0..12).map(|_| ("drawn", random_rows(&mut random))));
    rows
}

/// Rows with other settings: LT, E on both sides of the fifth pair's part and of
/// the sixth's, an OBAALSE, and drawn ones.
pub fn rows_by_settings() -> Rows {
    let mut rows = Vec::new();
    for (name, settings) in chosen() {
        let load = 1_009;
        let without = eligible_without_evidence(&settings, load);
        let with = eligible_with_evidence(&settings, load);
        let mut sums = vec![0, without, without + 1, with, with + 1];
        sums.sort();
        sums.dedup();
        let of = |ten_year, obaalse| Step {
            load,
            carried: 40,
            ten_year,
            obaalse,
            settings,
            ..Step::default()
        };
        rows.extend(sums.into_iter().map(|sum| (name, of(sum, false))));
        rows.push((name, of(0, true)));
    }
    let mut random = Random::new(3_010);
    for _ in 0..12 {
        let settings = drawn(&mut random);
        let step = Step {
            settings,
            ..random_rows(&mut random)
        };
        rows.push(("drawn settings", step));
    }
    rows
}

/// E on both sides of a fifth and of half of A, and OBAALSEs with the same.
fn by_evidence(load: u64) -> Rows {
    let (fifth, half) = (
        eligible_without_evidence(&Settings::PRESENT, load),
        eligible_with_evidence(&Settings::PRESENT, load),
    );
    let mut sums = vec![0, fifth, fifth + 1, half, half + 1, load, 3 * MAX_KW];
    sums.extend(fifth.checked_sub(1));
    sums.extend(half.checked_sub(1));
    sums.sort();
    sums.dedup();
    let of = |ten_year, obaalse| Step {
        load,
        ten_year,
        obaalse,
        ..Step::default()
    };
    let mut rows: Vec<_> = sums.into_iter().map(|sum| ("E", of(sum, false))).collect();
    for sum in [0, fifth + 1, half + 1] {
        rows.push(("OBAALSE", of(sum, true)));
    }
    rows
}

/// LT on both sides of what the step is for.
fn by_carried(load: u64) -> Rows {
    let (fifth, half) = (
        eligible_without_evidence(&Settings::PRESENT, load),
        eligible_with_evidence(&Settings::PRESENT, load),
    );
    let mut rows = Vec::new();
    for (ten_year, obaalse) in [
        (0, false),
        (fifth, false),
        (fifth + 1, false),
        (half + 1, false),
        (0, true),
    ] {
        let whole = Step {
            load,
            ten_year,
            obaalse,
            ..Step::default()
        };
        let most = whole.limit();
        for (about, carried) in [
            ("LT, 1 below the most", most - 1),
            ("LT as the most", most),
            ("LT above the most", most + 1),
        ] {
            rows.push((about, Step { carried, ..whole }));
        }
    }
    rows
}

/// Last year's allocation and tier 1's awards, which the step does not ask for.
fn with_tier_1() -> Rows {
    let of = |ten_year, obaalse| Step {
        load: 1_000,
        carried: 50,
        prior: 400,
        tier1: 350,
        ten_year,
        obaalse,
        ..Step::default()
    };
    let cases = [(0, false), (350, false), (501, false), (350, true)];
    let rows = cases.map(|(ten_year, obaalse)| ("T1", of(ten_year, obaalse)));
    rows.to_vec()
}

fn random_rows(random: &mut Random) -> Step {
    let most = random.select(&[20, 5_000, MAX_KW]);
    let load = random.up_to(most);
    Step {
        load,
        carried: random.up_to(load / 8),
        ten_year: random.up_to(load / 4 * 3),
        obaalse: random.one_in(4),
        ..Step::default()
    }
}
