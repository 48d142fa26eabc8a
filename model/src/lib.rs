//! Reference model of the season book: load, tiers, awards and migration of
//! congestion revenue rights for one season of three months.
//!
//! The model says what the product paper says, one idea a file, and is meant
//! to be read beside it:
//!
//! - [`Opening`] and [`Book::open`]: the book and its sizes;
//! - [`Settings`]: the six fractions that a `set` line gives;
//! - [`Book::call`]: the nine calls; [`Book::query`]: the three queries;
//! - [`refusals`]: the nineteen causes, looked for in ascending number but for
//!   19, which comes directly before 11, and 17 and 18, straight after 12;
//! - [`run`] and [`answers`]: scripts, groups, answers, and the host's number;
//! - [`generate`]: whole seasons, and damaged ones, from a seed;
//! - [`rules`]: single rules on plain numbers;
//! - [`vectors`]: stored scripts.
//!
//! Numbers are `u64`. Every field is held to its range before it is reckoned
//! with, so that no value at all can overflow.

mod book;
mod calendar;
mod calls;
mod evidence;
pub mod generate;
mod limit;
mod load;
mod migrate;
pub mod opening;
mod queries;
pub mod refusals;
mod rights;
pub mod rules;
mod run;
mod script;
pub mod settings;
pub mod sizes;
mod tiers;
pub mod vectors;

pub use book::Book;
pub use calendar::LONG_TERM_STEP;
pub use calls::{Answer, Block, Call, ClassLine, Load, Migrate, OnPath, Prior, Query, Verify};
pub use evidence::{Entry, Evidence};
pub use opening::Opening;
pub use run::{answers, run};
pub use settings::{Fraction, Settings};
