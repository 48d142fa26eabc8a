//! The book itself: its figures, opening, and read access to every figure.

use crate::evidence::Entry;
use crate::opening::{Opening, OBAALSE, SCHEDULING_POINT, SUB_LAP};
use crate::settings::Settings;
use crate::sizes::{MAX_HOLDERS, MAX_PATHS, MAX_SINKS, MAX_SOURCES, MONTHS, TERMS, TIERS};

/// One figure for each holder, path and month.
pub(crate) type ByMonth = [[[u64; MONTHS]; MAX_PATHS]; MAX_HOLDERS];
/// One figure for each holder, path and tier.
pub(crate) type ByTier = [[[u64; TIERS]; MAX_PATHS]; MAX_HOLDERS];

/// One season and one time of use period, all figures in whole kW.
#[derive(Clone, Debug, PartialEq, Eq)]
pub struct Book {
    pub(crate) holders: usize,
    pub(crate) sources: usize,
    pub(crate) sinks: usize,
    pub(crate) paths: usize,
    pub(crate) holder_kind: [u64; MAX_HOLDERS],
    pub(crate) sink_kind: [u64; MAX_SINKS],
    /// Base of each sink: the parent of a Sub-LAP, else the sink itself.
    pub(crate) base: [usize; MAX_SINKS],
    pub(crate) path_source: [usize; MAX_PATHS],
    pub(crate) path_sink: [usize; MAX_PATHS],
    /// The fractions that limits and load are reckoned with.
    pub(crate) settings: Settings,
    /// Load by holder, sink and term, after migration.
    pub(crate) load: [[[u64; TERMS]; MAX_SINKS]; MAX_HOLDERS],
    pub(crate) load_posted: [[[bool; TERMS]; MAX_SINKS]; MAX_HOLDERS],
    /// Long Term rights held in each month, after migration.
    pub(crate) carried: ByMonth,
    pub(crate) carry_posted: [[bool; MAX_PATHS]; MAX_HOLDERS],
    /// Awarded rights held in each month, after migration.
    pub(crate) awarded: ByMonth,
    /// Prior's a, after migration.
    pub(crate) prior_allocated: [[u64; MAX_PATHS]; MAX_HOLDERS],
    /// Prior's a - l, a record of its own, after migration.
    pub(crate) prior_remaining: [[u64; MAX_PATHS]; MAX_HOLDERS],
    pub(crate) prior_posted: [[bool; MAX_PATHS]; MAX_HOLDERS],
    /// Evidence by holder, source and kind (ownership, contract).
    pub(crate) evidence: [[[Entry; 2]; MAX_SOURCES]; MAX_HOLDERS],
    /// kW nominated in each tier; down to the awarded once it is closed.
    pub(crate) nominated: ByTier,
    /// kW awarded in each tier; these stay where they were awarded.
    pub(crate) tier_awards: ByTier,
    /// kW nominated in the Long Term step; down to the awarded once it is closed.
    pub(crate) step_nominated: [[u64; MAX_PATHS]; MAX_HOLDERS],
    /// kW awarded in the Long Term step, a record of its own: no holding of
    /// this season has them.
    pub(crate) step_awards: [[u64; MAX_PATHS]; MAX_HOLDERS],
    /// Whether the Long Term step was opened, which it can be only once.
    pub(crate) step_held: bool,
    pub(crate) last_closed: u64,
    pub(crate) open_tier: Option<u64>,
}

impl Book {
    /// Opening: a book drawn up from lists that keep the rules, every figure
    /// 0 or empty; otherwise 16.
    pub fn open(opening: &Opening) -> Result<Book, u64> {
        opening.check()?;
        let mut book = Book::empty();
        book.holders = opening.holder_kinds.len();
        book.sources = opening.sources as usize;
        book.sinks = opening.sink_kinds.len();
        book.paths = opening.path_sinks.len();
        book.holder_kind[..book.holders].copy_from_slice(&opening.holder_kinds);
        book.sink_kind[..book.sinks].copy_from_slice(&opening.sink_kinds);
        for (sink, &parent) in opening.sink_parents.iter().enumerate() {
            book.base[sink] = parent as usize;
        }
        for path in 0..book.paths {
            book.path_source[path] = opening.path_sources[path] as usize;
            book.path_sink[path] = opening.path_sinks[path] as usize;
        }
        book.settings = opening.settings;
        Ok(book)
    }

    fn empty() -> Book {
        Book {
            holders: 0,
            sources: 0,
            sinks: 0,
            paths: 0,
            holder_kind: [0; MAX_HOLDERS],
            sink_kind: [0; MAX_SINKS],
            base: [0; MAX_SINKS],
            path_source: [0; MAX_PATHS],
            path_sink: [0; MAX_PATHS],
            settings: Settings::PRESENT,
            load: [[[0; TERMS]; MAX_SINKS]; MAX_HOLDERS],
            load_posted: [[[false; TERMS]; MAX_SINKS]; MAX_HOLDERS],
            carried: [[[0; MONTHS]; MAX_PATHS]; MAX_HOLDERS],
            carry_posted: [[false; MAX_PATHS]; MAX_HOLDERS],
            awarded: [[[0; MONTHS]; MAX_PATHS]; MAX_HOLDERS],
            prior_allocated: [[0; MAX_PATHS]; MAX_HOLDERS],
            prior_remaining: [[0; MAX_PATHS]; MAX_HOLDERS],
            prior_posted: [[false; MAX_PATHS]; MAX_HOLDERS],
            evidence: [[[Entry::EMPTY; 2]; MAX_SOURCES]; MAX_HOLDERS],
            nominated: [[[0; TIERS]; MAX_PATHS]; MAX_HOLDERS],
            tier_awards: [[[0; TIERS]; MAX_PATHS]; MAX_HOLDERS],
            step_nominated: [[0; MAX_PATHS]; MAX_HOLDERS],
            step_awards: [[0; MAX_PATHS]; MAX_HOLDERS],
            step_held: false,
            last_closed: 0,
            open_tier: None,
        }
    }

    pub(crate) fn has_holder(&self, holder: u64) -> bool {
        holder < self.holders as u64
    }

    pub(crate) fn has_source(&self, source: u64) -> bool {
        source < self.sources as u64
    }

    pub(crate) fn has_sink(&self, sink: u64) -> bool {
        sink < self.sinks as u64
    }

    pub(crate) fn has_path(&self, path: u64) -> bool {
        path < self.paths as u64
    }

    pub(crate) fn is_obaalse(&self, holder: usize) -> bool {
        self.holder_kind[holder] == OBAALSE
    }

    pub(crate) fn is_sub_lap(&self, sink: usize) -> bool {
        self.sink_kind[sink] == SUB_LAP
    }

    /// Cause 10 by kind: a scheduling point is for kind 2 holders alone, and
    /// they have no other sink.
    pub(crate) fn sink_ineligible(&self, holder: usize, sink: usize) -> bool {
        let scheduling_point = self.sink_kind[sink] == SCHEDULING_POINT;
        scheduling_point != self.is_obaalse(holder)
    }

    pub(crate) fn base_of_path(&self, path: usize) -> usize {
        self.base[self.path_sink[path]]
    }

    /// The paths that end at the base itself or at one of its Sub-LAPs.
    pub(crate) fn paths_with_base(&self, base: usize) -> impl Iterator<Item = usize> + '_ {
        (0..self.paths).filter(move |&path| self.base_of_path(path) == base)
    }
}

/// Read access, for those who check the sums. Numbers outside the book panic.
impl Book {
    /// Number of holders.
    pub fn holders(&self) -> usize {
        self.holders
    }

    /// Number of sources.
    pub fn sources(&self) -> usize {
        self.sources
    }

    /// Number of sinks.
    pub fn sinks(&self) -> usize {
        self.sinks
    }

    /// Number of paths.
    pub fn paths(&self) -> usize {
        self.paths
    }

    /// Kind of a holder, 1 or 2.
    pub fn holder_kind(&self, holder: usize) -> u64 {
        self.holder_kind[holder]
    }

    /// Kind of a sink, 1 to 4.
    pub fn sink_kind(&self, sink: usize) -> u64 {
        self.sink_kind[sink]
    }

    /// Base of a sink.
    pub fn base(&self, sink: usize) -> usize {
        self.base[sink]
    }

    /// Source of a path.
    pub fn path_source(&self, path: usize) -> usize {
        self.path_source[path]
    }

    /// Sink of a path.
    pub fn path_sink(&self, path: usize) -> usize {
        self.path_sink[path]
    }

    /// The fractions that the book was opened with.
    pub fn settings(&self) -> Settings {
        self.settings
    }

    /// Load at a sink and term 0 to 3.
    pub fn load(&self, holder: usize, sink: usize, term: usize) -> u64 {
        self.load[holder][sink][term]
    }

    /// Whether a load was posted at a sink and term 0 to 3.
    pub fn load_posted(&self, holder: usize, sink: usize, term: usize) -> bool {
        self.load_posted[holder][sink][term]
    }

    /// Carried holding on a path in month 1 to 3.
    pub fn carried(&self, holder: usize, path: usize, month: usize) -> u64 {
        self.carried[holder][path][month - 1]
    }

    /// Whether a carry was posted on a path.
    pub fn carry_posted(&self, holder: usize, path: usize) -> bool {
        self.carry_posted[holder][path]
    }

    /// Awarded holding on a path in month 1 to 3.
    pub fn awarded(&self, holder: usize, path: usize, month: usize) -> u64 {
        self.awarded[holder][path][month - 1]
    }

    /// Prior's a on a path.
    pub fn prior_allocated(&self, holder: usize, path: usize) -> u64 {
        self.prior_allocated[holder][path]
    }

    /// Prior's a - l on a path.
    pub fn prior_remaining(&self, holder: usize, path: usize) -> u64 {
        self.prior_remaining[holder][path]
    }

    /// Whether a prior was posted on a path.
    pub fn prior_posted(&self, holder: usize, path: usize) -> bool {
        self.prior_posted[holder][path]
    }

    /// The evidence entry of a holder, source and kind 1 or 2.
    pub fn evidence(&self, holder: usize, source: usize, kind: usize) -> Entry {
        self.evidence[holder][source][kind - 1]
    }

    /// kW nominated on a path in tier 1 to 9.
    pub fn nominated(&self, holder: usize, path: usize, tier: usize) -> u64 {
        self.nominated[holder][path][tier - 1]
    }

    /// kW awarded on a path in tier 1 to 9.
    pub fn tier_awards(&self, holder: usize, path: usize, tier: usize) -> u64 {
        self.tier_awards[holder][path][tier - 1]
    }

    /// kW nominated on a path in the Long Term step.
    pub fn step_nominated(&self, holder: usize, path: usize) -> u64 {
        self.step_nominated[holder][path]
    }

    /// kW awarded on a path in the Long Term step.
    pub fn step_awards(&self, holder: usize, path: usize) -> u64 {
        self.step_awards[holder][path]
    }

    /// Whether the Long Term step was opened.
    pub fn step_held(&self) -> bool {
        self.step_held
    }

    /// The tier closed last, 0 before tier 1 is; never the Long Term step.
    pub fn last_closed(&self) -> u64 {
        self.last_closed
    }

    /// The tier that is open, if one is; the Long Term step is one.
    pub fn open_tier(&self) -> Option<u64> {
        self.open_tier
    }
}
