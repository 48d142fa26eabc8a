//! The season being written, and the book that goes along with it.

use super::draft::Draft;
use super::random::Random;
use crate::book::Book;
use crate::limit::{eligible_with_evidence, priority_eligible};
use crate::run::answer_groups;
use crate::script;
use crate::sizes::MAX_KW;

/// Room is left below the script's limits, so that tiers can still be opened
/// and closed once nothing else is written.
const MAX_BYTES: usize = 60_000;
const MAX_LINES: usize = 3_800;

pub(crate) struct Writer {
    pub(crate) random: Random,
    pub(crate) book: Book,
    pub(crate) text: String,
    lines: usize,
    /// The bytes behind which a `set` line would be the book group's; none where
    /// the group has one.
    open_for_settings: Option<usize>,
    /// The size of the season's loads; rights are of about the same size.
    pub(crate) scale: u64,
    /// Postings that were accepted, for posting them again.
    pub(crate) posted: Vec<Draft>,
}

impl Writer {
    pub(crate) fn new(mut random: Random, book: Book, text: String) -> Writer {
        let scale = random.select(&[4, 60, 1_000, 1_000, 50_000, 3_000_000, MAX_KW]);
        let last = text.lines().last().unwrap_or("");
        let has_settings = script::begins_settings(last.as_bytes());
        Writer {
            lines: script::count_lines(text.as_bytes()),
            open_for_settings: (!has_settings).then_some(text.len()),
            random,
            book,
            text,
            scale,
            posted: Vec::new(),
        }
    }

    /// Whether a `set` line written now would be the book group's, which the
    /// book at hand was opened without.
    pub(crate) fn takes_settings(&self) -> bool {
        self.open_for_settings == Some(self.text.len())
    }

    /// Writes whole lines and runs them, if there is still room.
    pub(crate) fn say_text(&mut self, text: &str) -> bool {
        let lines = script::lines(text.as_bytes());
        let full = self.text.len() + text.len() > MAX_BYTES;
        if full || self.lines + lines.len() > MAX_LINES {
            return false;
        }
        self.write(text)
    }

    /// Writes a group and runs it, if there is still room; true if accepted.
    pub(crate) fn say(&mut self, draft: &Draft) -> bool {
        let accepted = self.say_text(&draft.text());
        if accepted && ["load", "carry", "prior", "verify"].contains(&draft.word) {
            self.posted.push(draft.clone());
        }
        accepted
    }

    /// Writes a line that the season cannot do without, such as an opening.
    pub(crate) fn say_surely(&mut self, word: &'static str, fields: &[u64]) {
        self.write(&Draft::line(word, fields).text());
    }

    fn write(&mut self, text: &str) -> bool {
        let lines = script::lines(text.as_bytes());
        let mut answers = Vec::new();
        answer_groups(&mut self.book, &lines, &mut answers);
        self.text.push_str(text);
        self.lines += lines.len();
        answers.starts_with(b"ok")
    }

    /// A kW of about the season's size over `part`, 1 at least.
    pub(crate) fn kw(&mut self, part: u64) -> u64 {
        let most = (self.scale / part).max(1);
        self.random.between(most.div_ceil(2), most)
    }

    /// A kW of rights of about the size, over `part`, that the settings leave room
    /// for in tier 1, which is half of the load with the present ones.
    pub(crate) fn kw_of_rights(&mut self, part: u64) -> u64 {
        let settings = &self.book.settings;
        let given = priority_eligible(settings, self.scale);
        let given = given.min(eligible_with_evidence(settings, self.scale));
        let most = (2 * given / part).clamp(1, MAX_KW);
        self.random.between(most.div_ceil(2), most)
    }

    /// Holders that may hold rights to a sink, or load there.
    pub(crate) fn fits(&self, holder: usize, sink: usize) -> bool {
        !self.book.sink_ineligible(holder, sink)
    }

    /// Pairs of a holder and a path whose sink is for it, in any order.
    pub(crate) fn fitting_paths(&mut self) -> Vec<(usize, usize)> {
        let mut pairs = Vec::new();
        for holder in 0..self.book.holders {
            for path in 0..self.book.paths {
                if self.fits(holder, self.book.path_sink[path]) {
                    pairs.push((holder, path));
                }
            }
        }
        self.random.shuffle(&mut pairs);
        pairs
    }
}
