//! Replays a generated season call by call, with a tally of its own kept from
//! the accepted calls alone.
#![allow(dead_code)]

mod evidence;
mod reader;
mod settings;
mod tally;

pub use evidence::EvidenceState;
use model::{Answer, Book, Call, Migrate, OnPath, Settings, LONG_TERM_STEP};
pub use reader::{season, Group, Season};
use tally::Tally;

/// What was drawn in the seasons replayed so far.
#[derive(Default, Debug)]
pub struct Coverage {
    pub seasons: u64,
    /// How often each number was answered.
    pub numbers: [u64; 20],
    /// Seasons in which tier 9 was opened and closed.
    pub complete: u64,
    /// Seasons in which a migration moved load, by term.
    pub load_moved: [u64; 4],
    /// Seasons in which a migration moved a carried or awarded holding, by term.
    pub rights_moved: [u64; 4],
    /// Seasons opened with a `set` line, and those of them with other figures
    /// than the present ones.
    pub set: [u64; 2],
    /// Book groups with a `set` line that were refused with 1, then with 16.
    pub set_refused: [u64; 2],
    /// Lines of the word `set` that stand elsewhere.
    pub stray_sets: u64,
    /// Limits above 0 in tier 1 by which of the three was strictly the least.
    pub tier_1_least: [u64; 3],
    /// Limits of the step that evidence brought below what they are without it.
    pub lowered_by_evidence: u64,
    /// Loads accepted with more than 1 hour in 50 missing.
    pub mostly_missing: u64,
    /// Loads refused with 7, nominations with 13 and 18, in seasons with other
    /// figures than the present ones.
    pub by_settings: [u64; 3],
    /// Nominations accepted in such seasons.
    pub nominated_by_settings: u64,
    /// Nominations and awards that were accepted.
    pub nominated: u64,
    pub awarded: u64,
    /// Nominations that came exactly to the limit.
    pub at_the_limit: u64,
    /// Seasons in which the Long Term step was opened.
    pub step_held: u64,
    /// How often each number was answered while the step was open.
    pub step_numbers: [u64; 20],
    /// Nominations and awards that were accepted in the step.
    pub step_nominated: u64,
    pub step_awarded: u64,
    /// Nominations in the step that came exactly to its limit, above a fifth of
    /// the load.
    pub step_at_evidence: u64,
    /// Nominations refused with 18 for the source of an earlier one alone.
    pub step_earlier_source: u64,
    /// Nominations refused with 19 or 11 by what their evidence came to
    /// ([`EvidenceState`]), in the season's tiers, then in the months'.
    pub by_evidence: [[u64; 5]; 2],
    /// Nominations of kind 2 holders that were accepted in the season's tiers,
    /// then in the months'.
    pub verified: [u64; 2],
}

/// One season on its way.
struct Replay<'a> {
    seed: u64,
    book: Book,
    tally: Tally,
    /// Whether the season has other figures than the present ones.
    others: bool,
    answers: Vec<u8>,
    coverage: &'a mut Coverage,
    load_moved: [bool; 4],
    rights_moved: [bool; 4],
}

/// Replays the season of a seed: every sum is checked after every accepted
/// call, and the answers are those that the script gets when it is run.
pub fn replay(seed: u64, coverage: &mut Coverage) {
    let script = model::generate::season(seed);
    let expected = model::answers(&script).expect("a season is within its limits");
    coverage.seasons += 1;
    let text = String::from_utf8(script).expect("a season is ASCII");
    let Season {
        opening,
        set,
        groups,
    } = season(&text);
    let settings = opening.as_ref().map(|opening| opening.settings);
    let sets = text.lines().filter(|line| line.starts_with("set")).count() as u64;
    coverage.stray_sets += sets - u64::from(set);
    let opened = opening.ok_or(1).and_then(|opening| Book::open(&opening));
    let book = match opened {
        Ok(book) => book,
        Err(number) => {
            coverage.numbers[number as usize] += 1;
            coverage.set_refused[usize::from(number == 16)] += u64::from(set);
            let refused = format!("no,{number:02}\n");
            assert_eq!(expected, refused.as_bytes(), "seed {seed}");
            return;
        }
    };
    let settings = settings.expect("an opening that was read");
    let others = settings != Settings::PRESENT;
    coverage.set[0] += u64::from(set);
    coverage.set[1] += u64::from(others);
    let mut replay = Replay {
        seed,
        book,
        tally: Tally::new(settings),
        others,
        answers: b"ok\n".to_vec(),
        coverage,
        load_moved: [false; 4],
        rights_moved: [false; 4],
    };
    groups.iter().for_each(|group| replay.answer(group));
    replay.finish(&expected);
}

impl Replay<'_> {
    fn answer(&mut self, group: &Group) {
        let answer = match group {
            Group::Unreadable => Answer::Refused(1),
            Group::Query(query) => Answer::from_query(self.book.query(query)),
            Group::Call(call) => Answer::from_call(self.call(&call.lend())),
        };
        if let Answer::Refused(number) = answer {
            self.coverage.numbers[number as usize] += 1;
            if self.book.open_tier() == Some(LONG_TERM_STEP) {
                self.coverage.step_numbers[number as usize] += 1;
            }
        }
        answer.write(&mut self.answers);
    }

    /// Runs a call; what is accepted goes into the tally and is checked.
    fn call(&mut self, call: &Call) -> Result<(), u64> {
        let before = match call {
            Call::Migrate(_) => Some(self.book.clone()),
            _ => None,
        };
        if let Err(number) = self.book.call(call) {
            self.count_refusal(call, number);
            return Err(number);
        }
        if let (Call::Migrate(migrate), Some(before)) = (call, before) {
            self.check_migration(migrate, &before);
        }
        self.tally.accept(call, &self.book, self.seed);
        self.tally.check(&self.book, self.seed);
        self.count(call);
        Ok(())
    }

    fn check_migration(&mut self, migrate: &Migrate, before: &Book) {
        let term = migrate.term as usize;
        let transfer = tally::check_migration(migrate, before, &self.book, self.seed);
        tally::check_other_loads(migrate, before, &self.book, self.seed);
        self.load_moved[term] |= transfer.load;
        self.rights_moved[term] |= transfer.rights;
    }

    /// Checks a load refused with 7 and a nomination refused with 13, 18, 19 or
    /// 11, and counts them, the latter by their evidence.
    fn count_refusal(&mut self, call: &Call, number: u64) {
        let others = u64::from(self.others);
        match (call, number) {
            (Call::Load(load), 7) => {
                self.tally.check_missing(load, true, self.seed);
                self.coverage.by_settings[0] += others;
            }
            (Call::Nominate(nominate), 13) => {
                self.tally
                    .check_above_limit(nominate, &self.book, self.seed);
                self.coverage.by_settings[1] += others;
            }
            (Call::Nominate(nominate), 18) => {
                self.tally
                    .check_no_ten_year(nominate, &self.book, self.seed);
                self.coverage.by_settings[2] += others;
                let source = self.book.path_source(nominate.path as usize);
                let has_ten_year =
                    self.tally.evidence.ten_year_at[nominate.holder as usize][source];
                self.coverage.step_earlier_source += u64::from(has_ten_year);
            }
            (Call::Nominate(nominate), 11 | 19) => {
                let (tally, seed) = (&self.tally, self.seed);
                let state = tally.check_unverified(nominate, number, &self.book, seed);
                self.coverage.by_evidence[self.of_a_month()][state as usize] += 1;
            }
            _ => {}
        }
    }

    /// 1 where the open tier is a month's, else 0.
    fn of_a_month(&self) -> usize {
        usize::from(self.book.last_closed() >= 3)
    }

    /// Counts an accepted nomination of a kind 2 holder, but for the step's.
    fn count_verified(&mut self, nominate: &OnPath) {
        let outside = self.book.holder_kind(nominate.holder as usize) == 2;
        let in_step = self.book.open_tier() == Some(LONG_TERM_STEP);
        if outside && !in_step {
            self.coverage.verified[self.of_a_month()] += 1;
        }
    }

    fn count(&mut self, call: &Call) {
        let in_step = self.book.open_tier() == Some(LONG_TERM_STEP);
        match call {
            Call::Nominate(nominate) => {
                self.coverage.nominated += 1;
                self.coverage.nominated_by_settings += u64::from(self.others);
                self.count_verified(nominate);
                self.coverage.step_nominated += u64::from(in_step);
                let at = self.tally.at_the_limit(nominate, &self.book);
                self.coverage.at_the_limit += u64::from(at);
                let (holder, path) = (nominate.holder as usize, nominate.path as usize);
                let asked = in_step && self.tally.asks_for_evidence(&self.book, holder, path, 0);
                self.coverage.step_at_evidence += u64::from(at && asked);
            }
            Call::Load(load) => {
                let present: u64 = load.blocks.iter().map(|block| block.length).sum();
                let missing = load.hours - present;
                self.coverage.mostly_missing += u64::from(missing * 50 > load.hours);
            }
            Call::Award(_) => {
                self.coverage.awarded += 1;
                self.coverage.step_awarded += u64::from(in_step);
            }
            _ => {}
        }
    }

    fn finish(&mut self, expected: &[u8]) {
        assert_eq!(self.answers, expected, "seed {}", self.seed);
        self.tally.check(&self.book, self.seed);
        self.coverage.complete += u64::from(self.book.last_closed() == 9);
        self.coverage.step_held += u64::from(self.book.step_held());
        self.coverage.lowered_by_evidence += self.tally.lowered_by_evidence;
        for (counted, more) in self
            .coverage
            .tier_1_least
            .iter_mut()
            .zip(self.tally.tier_1_least)
        {
            *counted += more;
        }
        for term in 0..4 {
            self.coverage.load_moved[term] += u64::from(self.load_moved[term]);
            self.coverage.rights_moved[term] += u64::from(self.rights_moved[term]);
        }
    }
}
