//! The sizes of a book and the largest numbers its fields take.

/// Most holders in one book.
pub const MAX_HOLDERS: usize = 8;
/// Most sources in one book.
pub const MAX_SOURCES: usize = 16;
/// Most sinks in one book.
pub const MAX_SINKS: usize = 16;
/// Most paths in one book.
pub const MAX_PATHS: usize = 16;
/// The season (term 0) and its three months (terms 1 to 3).
pub const TERMS: usize = 4;
/// Months of the season; month `k` is kept at index `k - 1`.
pub const MONTHS: usize = 3;
/// Tiers of the season; tier `t` is kept at index `t - 1`.
pub const TIERS: usize = 9;

/// Most hours a load may speak of.
pub const MAX_HOURS: u64 = 2_208;
/// Most blocks one load takes.
pub const MAX_BLOCKS: usize = 2_208;
/// Most class lines one migration takes.
pub const MAX_CLASS_LINES: usize = 64;
/// The largest kW any field takes.
pub const MAX_KW: u64 = 99_999_999;
/// The largest number of customers, and of average watts, in a class line.
pub const MAX_PER_CLASS: u64 = 9_999_999;
/// The whole of a plant, as ownership rights count it.
pub const FULL_OWNERSHIP: u64 = 10_000;

/// Most bytes of a script.
pub const MAX_SCRIPT_BYTES: usize = 65_536;
/// Most lines of a script.
pub const MAX_SCRIPT_LINES: usize = 4_096;
/// Output bytes the host lends for each line of the script.
pub const OUTPUT_BYTES_PER_LINE: usize = 16;
