//! What the accepted calls come to, and the sums the book has to keep.

use super::evidence::{EvidenceState, EvidenceTally};
use super::settings::{part, strictly_least};
use model::{Block, Book, Call, Fraction, Load, Migrate, OnPath, Query, Settings, LONG_TERM_STEP};

/// Sums over the accepted calls. No figure here is taken from the book but
/// the limits, which are reckoned when a tier opens.
#[derive(Default)]
pub struct Tally {
    /// The fractions that the script gives.
    pub settings: Settings,
    /// kW of the accepted carries, by path.
    carried_in: [u64; 16],
    /// kW of the accepted awards, by path and month.
    awarded: [[u64; 3]; 16],
    /// Loads posted, by sink and term.
    posted: [[u64; 4]; 16],
    /// Prior's a and a - l, by path.
    prior: [[u64; 2]; 16],
    /// kW of the nominations accepted since the tier opened, by holder and path.
    pub nominated: [[u64; 16]; 8],
    /// kW of the awards accepted since the tier opened, by holder and path.
    tier_awards: [[u64; 16]; 8],
    /// Limits when the tier opened, by holder and base.
    pub limits: [[u64; 16]; 8],
    /// kW awarded in each tier, by holder and path.
    past_awards: [[[u64; 9]; 16]; 8],
    /// kW awarded in the Long Term step, by holder and path.
    step_awards: [[u64; 16]; 8],
    pub evidence: EvidenceTally,
    open: Option<u64>,
    /// Limits above 0 in tier 1 for which P, the sum of a and the sixth fraction
    /// of A, in this order, was the one strictly least.
    pub tier_1_least: [u64; 3],
    /// Limits of the step that evidence brought below what they are without it.
    pub lowered_by_evidence: u64,
}

impl Tally {
    /// A season that nothing has been posted in.
    pub fn new(settings: Settings) -> Tally {
        Tally {
            settings,
            ..Tally::default()
        }
    }

    /// Takes in a call that the book has accepted.
    pub fn accept(&mut self, call: &Call, book: &Book, seed: u64) {
        match call {
            Call::Load(load) => {
                self.check_missing(load, false, seed);
                let kw = load_posted(load, self.settings.exceedance);
                self.posted[load.sink as usize][load.term as usize] += kw;
            }
            Call::Carry(carry) => self.carried_in[carry.path as usize] += carry.kw,
            Call::Prior(prior) => {
                self.prior[prior.path as usize][0] += prior.allocated;
                self.prior[prior.path as usize][1] += prior.allocated - prior.long_term;
            }
            Call::Open { tier } => self.accept_open(*tier, book, seed),
            Call::Nominate(one) => {
                self.nominated[one.holder as usize][one.path as usize] += one.kw;
            }
            Call::Award(award) => self.accept_award(award),
            Call::Close => self.open = None,
            Call::Verify(verify) => self.evidence.accept(verify),
            Call::Migrate(_) => {}
        }
    }

    /// A new tier: nominations start again, limits are reckoned once.
    fn accept_open(&mut self, tier: u64, book: &Book, seed: u64) {
        self.open = Some(tier);
        self.nominated = [[0; 16]; 8];
        self.tier_awards = [[0; 16]; 8];
        for holder in 0..book.holders() {
            for sink in 0..book.sinks() {
                let limit = self.limit(book, holder, book.base(sink), tier);
                self.limits[holder][sink] = limit;
                let (holder, sink) = (holder as u64, sink as u64);
                let answered = book.query(&Query::Limit { holder, sink });
                assert_eq!(answered, Ok(limit), "seed {seed}");
            }
        }
    }

    fn accept_award(&mut self, award: &OnPath) {
        let (holder, path) = (award.holder as usize, award.path as usize);
        let tier = self.open.expect("awards run in an open tier") as usize;
        self.tier_awards[holder][path] += award.kw;
        if tier as u64 == LONG_TERM_STEP {
            self.step_awards[holder][path] += award.kw;
            return;
        }
        self.past_awards[holder][path][tier - 1] += award.kw;
        let months = if tier <= 3 {
            0..3
        } else {
            tier / 2 - 2..tier / 2 - 1
        };
        for month in months {
            self.awarded[path][month] += award.kw;
        }
    }

    /// Limits, said once more: signed, cut off at 0 in the end.
    fn limit(&mut self, book: &Book, holder: usize, base: usize, tier: u64) -> u64 {
        let term = term_of(tier);
        let paths: Vec<usize> = (0..book.paths())
            .filter(|&path| book.base(book.path_sink(path)) == base)
            .collect();
        let sum = |of: &dyn Fn(usize) -> u64| paths.iter().map(|&p| of(p) as i64).sum::<i64>();
        let t = |n: usize| sum(&|path| self.past_awards[holder][path][n - 1]);
        let a = book.load(holder, base, term) as i64;
        let lt = sum(&|path| book.carried(holder, path, term.max(1)));
        let s = part(self.settings.seasonal, a);
        let p = part(self.settings.priority, s);
        let sum_of_a = sum(&|path| book.prior_allocated(holder, path));
        let tier_1 = [p, sum_of_a, part(self.settings.with_evidence, a)].map(|most| most - lt);
        let month = a - t(1) - t(2) - t(3) - lt;
        let limit = match tier {
            1 => self.tier_1_limit(tier_1),
            2 => p - t(1) - lt,
            3 => s - t(1) - t(2) - lt,
            4 | 6 | 8 => month,
            LONG_TERM_STEP => self.step_limit(book.holder_kind(holder), holder, a) - lt,
            _ => month - t(tier as usize - 1),
        };
        limit.max(0) as u64
    }

    /// The least of tier 1's three, counted by which of them it is.
    fn tier_1_limit(&mut self, three: [i64; 3]) -> i64 {
        let least = three.into_iter().fold(i64::MAX, i64::min);
        if let Some(one) = strictly_least(three).filter(|_| least > 0) {
            self.tier_1_least[one] += 1;
        }
        least
    }

    /// What the Long Term step gives of load A, before LT comes off.
    fn step_limit(&mut self, kind: u64, holder: usize, a: i64) -> i64 {
        let evidence = self.evidence.ten_year_kw[holder] as i64;
        let without = part(self.settings.without_evidence, a);
        let with = part(self.settings.with_evidence, a);
        match kind {
            2 => with,
            _ if evidence <= without => without,
            _ => {
                let limit = evidence.min(with);
                self.lowered_by_evidence += u64::from(limit < without);
                limit
            }
        }
    }

    /// Whether a nomination that was just accepted came exactly to the limit.
    pub fn at_the_limit(&self, nominate: &OnPath, book: &Book) -> bool {
        let holder = nominate.holder as usize;
        let base = book.base(book.path_sink(nominate.path as usize));
        self.nominated_at(book, holder, base) == self.limits[holder][base]
    }

    pub fn nominated_at(&self, book: &Book, holder: usize, base: usize) -> u64 {
        (0..book.paths())
            .filter(|&path| book.base(book.path_sink(path)) == base)
            .map(|path| self.nominated[holder][path])
            .sum()
    }

    /// The sums, all of them.
    pub fn check(&self, book: &Book, seed: u64) {
        self.check_holdings(book, seed);
        self.check_loads(book, seed);
        self.check_step(book, seed);
        match self.open {
            Some(LONG_TERM_STEP) => self.check_open_step(book, seed),
            Some(tier) => self.check_tier(book, tier as usize, seed),
            None => {}
        }
    }

    /// The Long Term step's record: its awards and no others, within tier 1's.
    fn check_step(&self, book: &Book, seed: u64) {
        for holder in 0..book.holders() {
            for path in 0..book.paths() {
                let awards = self.step_awards[holder][path];
                assert_eq!(book.step_awards(holder, path), awards, "seed {seed}");
                assert!(awards <= self.past_awards[holder][path][0], "seed {seed}");
                let open = self.open == Some(LONG_TERM_STEP);
                let nominated = if open {
                    self.nominated[holder][path]
                } else {
                    awards
                };
                assert_eq!(book.step_nominated(holder, path), nominated, "seed {seed}");
            }
        }
    }

    /// The open step: nominations within the limit, on each path within tier 1's
    /// awards, and with ten-year evidence where 18 asks for it.
    fn check_open_step(&self, book: &Book, seed: u64) {
        self.check_limits(book, seed);
        for holder in 0..book.holders() {
            for path in (0..book.paths()).filter(|&path| self.nominated[holder][path] > 0) {
                let nominated = self.nominated[holder][path];
                assert!(
                    nominated <= self.past_awards[holder][path][0],
                    "seed {seed}"
                );
                let asked = self.asks_for_evidence(book, holder, path, 0);
                let source = book.path_source(path);
                let has_ten_year = self.evidence.ten_year_at[holder][source];
                assert!(!asked || has_ten_year, "seed {seed}");
            }
        }
    }

    /// 18 asks of a kind 2 holder, and of one that with so many kW more at the
    /// path's base is above what the step gives of its load without evidence.
    pub fn asks_for_evidence(&self, book: &Book, holder: usize, path: usize, more: u64) -> bool {
        let base = book.base(book.path_sink(path));
        let lt: u64 = (0..book.paths())
            .filter(|&other| book.base(book.path_sink(other)) == base)
            .map(|other| book.carried(holder, other, 1))
            .sum();
        let nominated = self.nominated_at(book, holder, base) + more;
        let load = book.load(holder, base, 0) as i64;
        let without = part(self.settings.without_evidence, load);
        book.holder_kind(holder) == 2 || (nominated + lt) as i64 > without
    }

    /// Holdings summed over holders are what was carried in and awarded.
    fn check_holdings(&self, book: &Book, seed: u64) {
        for path in 0..book.paths() {
            for month in 1..=3 {
                let over = |of: &dyn Fn(usize) -> u64| (0..book.holders()).map(of).sum::<u64>();
                let carried = over(&|holder| book.carried(holder, path, month));
                let awarded = over(&|holder| book.awarded(holder, path, month));
                assert_eq!(carried, self.carried_in[path], "seed {seed}");
                assert_eq!(awarded, self.awarded[path][month - 1], "seed {seed}");
                let (path, month) = (path as u64, month as u64);
                let net = book.query(&Query::Net { path, month });
                assert_eq!(net, Ok(carried + awarded), "seed {seed}");
            }
            let prior = (0..book.holders()).fold([0, 0], |[a, rest], holder| {
                let more = book.prior_allocated(holder, path);
                [a + more, rest + book.prior_remaining(holder, path)]
            });
            assert_eq!(prior, self.prior[path], "seed {seed}");
        }
    }

    /// Loads summed over holders are what was posted.
    fn check_loads(&self, book: &Book, seed: u64) {
        for sink in 0..book.sinks() {
            for term in 0..4 {
                let holders = 0..book.holders();
                let load: u64 = holders.map(|holder| book.load(holder, sink, term)).sum();
                assert_eq!(load, self.posted[sink][term], "seed {seed}");
            }
        }
    }

    /// Nominations are within the limit at the tier's opening, awards within
    /// nominations.
    fn check_limits(&self, book: &Book, seed: u64) {
        for holder in 0..book.holders() {
            for path in 0..book.paths() {
                let base = book.base(book.path_sink(path));
                let nominated = self.nominated_at(book, holder, base);
                assert!(nominated <= self.limits[holder][base], "seed {seed}");
                let awarded = self.tier_awards[holder][path];
                assert!(awarded <= self.nominated[holder][path], "seed {seed}");
            }
        }
    }

    /// The open tier's nominations and awards, and those of no other.
    fn check_tier(&self, book: &Book, tier: usize, seed: u64) {
        self.check_limits(book, seed);
        for holder in 0..book.holders() {
            for path in 0..book.paths() {
                let nominated = self.nominated[holder][path];
                let awarded = self.tier_awards[holder][path];
                assert_eq!(book.nominated(holder, path, tier), nominated, "seed {seed}");
                assert_eq!(book.tier_awards(holder, path, tier), awarded, "seed {seed}");
                if nominated > 0 && book.holder_kind(holder) == 2 {
                    let (state, _) = self.state(book, holder, path, seed);
                    assert!(state.for_the_term(), "seed {seed}");
                }
            }
        }
    }

    /// A nomination refused with 19 or 11 is of a kind 2 holder and not in the
    /// Long Term step; 19 is without evidence for the term, 11 above what is
    /// left of it. Gives what the evidence comes to.
    pub fn check_unverified(
        &self,
        nominate: &OnPath,
        number: u64,
        book: &Book,
        seed: u64,
    ) -> EvidenceState {
        let (holder, path) = (nominate.holder as usize, nominate.path as usize);
        assert_eq!(book.holder_kind(holder), 2, "seed {seed}");
        assert_ne!(self.open, Some(LONG_TERM_STEP), "seed {seed}");
        let (state, left) = self.state(book, holder, path, seed);
        assert_eq!(state.for_the_term(), number == 11, "seed {seed}");
        assert!(nominate.kw > left, "seed {seed}");
        state
    }

    /// What a kind 2 holder's evidence at a path's source comes to in the open
    /// tier, and the kW left of it; no more is taken than there is.
    pub fn state(
        &self,
        book: &Book,
        holder: usize,
        path: usize,
        seed: u64,
    ) -> (EvidenceState, u64) {
        let source = book.path_source(path);
        let tier = self.open.expect("nominations run in an open tier");
        let taken = self.taken(book, holder, source, tier);
        let state = self.evidence.state(holder, source, term_of(tier), taken);
        state.unwrap_or_else(|| panic!("seed {seed}"))
    }

    /// kW that a holder's evidence at a source has to cover: what it nominated
    /// in the tier, and its earlier awards of the season and of the tier's month.
    fn taken(&self, book: &Book, holder: usize, source: usize, tier: u64) -> u64 {
        let served = |earlier: &u64| [0, term_of(tier)].contains(&term_of(*earlier));
        let earlier: Vec<usize> = (1..tier).filter(served).map(|n| n as usize - 1).collect();
        (0..book.paths())
            .filter(|&path| book.path_source(path) == source)
            .map(|path| {
                let awards = self.past_awards[holder][path];
                let awarded: u64 = earlier.iter().map(|&index| awards[index]).sum();
                self.nominated[holder][path] + awarded
            })
            .sum()
    }
}

/// The term of a tier by 01's table, the Long Term step its tenth: the model has
/// the formula.
fn term_of(tier: u64) -> usize {
    [0, 0, 0, 1, 1, 2, 2, 3, 3, 0][tier as usize - 1]
}

/// The load posted, from the hours themselves: with the hours from the highest
/// kW down, the metric is the first that the exceedance does not reach, or the
/// last if it reaches all.
fn load_posted(load: &Load, exceedance: Fraction) -> u64 {
    let hours_of = |block: &Block| std::iter::repeat_n(block.kw, block.length as usize);
    let mut hours: Vec<u64> = load.blocks.iter().flat_map(hours_of).collect();
    hours.sort_unstable();
    hours.reverse();
    let allowed = part(exceedance, hours.len() as i64) as usize;
    let metric = hours[allowed.min(hours.len() - 1)];
    metric - metric.min(load.contract)
}

/// Whether a migration moved anything.
pub struct Transfer {
    pub load: bool,
    pub rights: bool,
}

/// Reads a figure of a holder on a path.
type Read = Box<dyn Fn(&Book, usize, usize) -> u64>;

/// One record of a holder on a path, read from a book.
struct Record {
    /// Whether the term's migration shares it out; otherwise it stays.
    transfers: bool,
    /// Whether it is a holding.
    held: bool,
    read: Read,
}

/// Migration, said once more: m by pair, what each holder loses and gains of
/// its load and of every record, and that no one loses more than it had.
pub fn check_migration(migrate: &Migrate, before: &Book, after: &Book, seed: u64) -> Transfer {
    let (sink, term) = (migrate.sink as usize, migrate.term as usize);
    let m = m_by_pair(migrate);
    let load: Vec<u64> = (0..before.holders())
        .map(|holder| before.load(holder, sink, term))
        .collect();
    let now = |holder| after.load(holder, sink, term);
    let mut transfer = Transfer {
        load: check_record(&load, now, |loser, gainer| m[loser][gainer], seed),
        rights: false,
    };
    for path in 0..before.paths() {
        let takes_part = before.base(before.path_sink(path)) == sink;
        for Record {
            transfers,
            held,
            read,
        } in records(term)
        {
            let values: Vec<u64> = (0..before.holders())
                .map(|holder| read(before, holder, path))
                .collect();
            let share = |loser: usize, gainer: usize| match m[loser][gainer] {
                kw if kw > 0 && takes_part && transfers => {
                    let product = u128::from(values[loser]) * u128::from(kw);
                    (product / u128::from(load[loser])) as u64
                }
                _ => 0,
            };
            let now = |holder| read(after, holder, path);
            transfer.rights |= check_record(&values, now, share, seed) && held;
        }
    }
    transfer
}

/// One record of all holders: each loses its shares together, at most what it
/// had, and gains those of others. True if anything moved.
fn check_record(
    values: &[u64],
    now: impl Fn(usize) -> u64,
    share: impl Fn(usize, usize) -> u64,
    seed: u64,
) -> bool {
    let mut transfer = false;
    for (holder, &value) in values.iter().enumerate() {
        let lost: u64 = (0..values.len()).map(|other| share(holder, other)).sum();
        let gained: u64 = (0..values.len()).map(|other| share(other, holder)).sum();
        assert!(lost <= value, "seed {seed}");
        assert_eq!(now(holder), value - lost + gained, "seed {seed}");
        transfer |= lost + gained > 0;
    }
    transfer
}

/// kW from the first holder to the second, by pair: signed watts, netted, then
/// rounded.
fn m_by_pair(migrate: &Migrate) -> [[u64; 8]; 8] {
    let mut watts = [[0i64; 8]; 8];
    for line in migrate.lines {
        let product = (line.customers * line.watts) as i64;
        let (from, to) = (line.from as usize, line.to as usize);
        watts[from][to] += product;
        watts[to][from] -= product;
    }
    watts.map(|row| row.map(|net| net.max(0) as u64 / 1_000))
}

/// All records on a path: which of them a term's migration shares out.
fn records(term: usize) -> Vec<Record> {
    let mut records = Vec::new();
    for month in 1..=3 {
        records.push(Record {
            transfers: term == 0 || term == month,
            held: true,
            read: Box::new(move |book, holder, path| book.carried(holder, path, month)),
        });
        records.push(Record {
            transfers: term == month,
            held: true,
            read: Box::new(move |book, holder, path| book.awarded(holder, path, month)),
        });
    }
    for read in [Book::prior_allocated, Book::prior_remaining] {
        records.push(Record {
            transfers: term == 0,
            held: false,
            read: Box::new(read),
        });
    }
    records
}

/// No other sink's load, and no other term's, is touched by a migration.
pub fn check_other_loads(migrate: &Migrate, before: &Book, after: &Book, seed: u64) {
    for holder in 0..before.holders() {
        for sink in 0..before.sinks() {
            for term in 0..4 {
                let own = (sink as u64, term as u64) == (migrate.sink, migrate.term);
                let loads = [before, after].map(|book| book.load(holder, sink, term));
                assert!(own || loads[0] == loads[1], "seed {seed}");
            }
        }
    }
}
