//! The opening: what a book is drawn up from, and when it breaks the rules.

use crate::refusals::{refuse_if, BREAKS_RULES};
use crate::settings::Settings;
use crate::sizes::{MAX_HOLDERS, MAX_PATHS, MAX_SINKS, MAX_SOURCES};

/// Holder kind 1: a load-serving entity.
pub const LSE: u64 = 1;
/// Holder kind 2: a qualified entity outside the balancing area.
pub const OBAALSE: u64 = 2;

/// Sink kind 1: a Default LAP.
pub const DEFAULT_LAP: u64 = 1;
/// Sink kind 2: a Sub-LAP.
pub const SUB_LAP: u64 = 2;
/// Sink kind 3: a custom LAP or a node.
pub const CUSTOM_LAP: u64 = 3;
/// Sink kind 4: a scheduling point.
pub const SCHEDULING_POINT: u64 = 4;

/// What opening takes: four counts, the lists they count, and the settings.
#[derive(Clone, Debug, Default, PartialEq, Eq)]
pub struct Opening {
    pub holders: u64,
    pub sources: u64,
    pub sinks: u64,
    pub paths: u64,
    /// Kind of each holder.
    pub holder_kinds: Vec<u64>,
    /// Kind of each sink.
    pub sink_kinds: Vec<u64>,
    /// Sink that each sink names: the parent of a Sub-LAP, else itself.
    pub sink_parents: Vec<u64>,
    /// Source of each path.
    pub path_sources: Vec<u64>,
    /// Sink of each path.
    pub path_sinks: Vec<u64>,
    /// The six fractions; the present ones where no `set` line gives others.
    pub settings: Settings,
}

impl Opening {
    /// Cause 16, the only one an opening can meet.
    pub fn check(&self) -> Result<(), u64> {
        let broken = !self.counts_fit()
            || !self.lists_match_counts()
            || !self.kinds_known()
            || !self.parents_fit()
            || !self.paths_fit()
            || self.path_twice()
            || !self.settings.are_legal();
        refuse_if(broken, BREAKS_RULES)
    }

    /// The book: up to 8 holders and 16 sources, sinks and paths each.
    fn counts_fit(&self) -> bool {
        self.holders <= MAX_HOLDERS as u64
            && self.sources <= MAX_SOURCES as u64
            && self.sinks <= MAX_SINKS as u64
            && self.paths <= MAX_PATHS as u64
    }

    /// A list that is longer or shorter than its count is a broken count.
    fn lists_match_counts(&self) -> bool {
        self.holder_kinds.len() as u64 == self.holders
            && self.sink_kinds.len() as u64 == self.sinks
            && self.sink_parents.len() as u64 == self.sinks
            && self.path_sources.len() as u64 == self.paths
            && self.path_sinks.len() as u64 == self.paths
    }

    /// The book: two kinds of holder, four kinds of sink.
    fn kinds_known(&self) -> bool {
        let holders = (LSE..=OBAALSE, &self.holder_kinds);
        let sinks = (DEFAULT_LAP..=SCHEDULING_POINT, &self.sink_kinds);
        holders.1.iter().all(|kind| holders.0.contains(kind))
            && sinks.1.iter().all(|kind| sinks.0.contains(kind))
    }

    /// The book: the parent of a Sub-LAP is a Default LAP numbered below it;
    /// every sink of another kind is its own.
    fn parents_fit(&self) -> bool {
        (0..self.sink_kinds.len()).all(|sink| {
            let parent = self.sink_parents[sink];
            if self.sink_kinds[sink] == SUB_LAP {
                parent < sink as u64 && self.sink_kinds[parent as usize] == DEFAULT_LAP
            } else {
                parent == sink as u64
            }
        })
    }

    /// The book: a path is a source and a sink of this book.
    fn paths_fit(&self) -> bool {
        self.path_sources.iter().all(|&s| s < self.sources)
            && self.path_sinks.iter().all(|&s| s < self.sinks)
    }

    /// The book: no two paths have both source and sink in common.
    fn path_twice(&self) -> bool {
        let path = |p: usize| (self.path_sources[p], self.path_sinks[p]);
        let count = self.path_sources.len();
        (0..count).any(|p| (p + 1..count).any(|q| path(p) == path(q)))
    }
}
