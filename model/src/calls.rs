//! The nine calls and three queries as values, and where each one is run.

use crate::book::Book;
use crate::{evidence, load, migrate, queries, rights, tiers};

/// A block of a load: consecutive hours with the same kW.
#[derive(Clone, Copy, Debug, Default, PartialEq, Eq)]
pub struct Block {
    /// First hour, from 0.
    pub first: u64,
    /// Number of hours.
    pub length: u64,
    pub kw: u64,
}

/// A class line of a migration: customers that went from one holder to another.
#[derive(Clone, Copy, Debug, Default, PartialEq, Eq)]
pub struct ClassLine {
    pub from: u64,
    pub to: u64,
    pub class: u64,
    pub customers: u64,
    /// Average watts of one customer.
    pub watts: u64,
}

/// Load of a holder at a sink and term.
#[derive(Clone, Copy, Debug, PartialEq, Eq)]
pub struct Load<'a> {
    pub holder: u64,
    pub sink: u64,
    pub term: u64,
    /// Contract load, which comes off the metric.
    pub contract: u64,
    /// Hours n of the term.
    pub hours: u64,
    pub blocks: &'a [Block],
}

/// kW of a holder on a path: what carry, nominate and award take.
#[derive(Clone, Copy, Debug, PartialEq, Eq)]
pub struct OnPath {
    pub holder: u64,
    pub path: u64,
    pub kw: u64,
}

/// Last year's allocation of a holder on a path.
#[derive(Clone, Copy, Debug, PartialEq, Eq)]
pub struct Prior {
    pub holder: u64,
    pub path: u64,
    /// The a of the paper: kW allocated last year.
    pub allocated: u64,
    /// The l of the paper: the part of it that went to Long Term.
    pub long_term: u64,
}

/// Evidence of a holder at a source.
#[derive(Clone, Copy, Debug, PartialEq, Eq)]
pub struct Verify {
    pub holder: u64,
    pub source: u64,
    /// 1 ownership, 2 contract.
    pub kind: u64,
    pub capacity: u64,
    pub right: u64,
    pub first_month: u64,
    pub last_month: u64,
    /// 1 for ten-year evidence, else 0.
    pub ten_year: u64,
}

/// Customers that changed their holder at a sink in a term.
#[derive(Clone, Copy, Debug, PartialEq, Eq)]
pub struct Migrate<'a> {
    pub term: u64,
    pub sink: u64,
    pub lines: &'a [ClassLine],
}

/// A call: makes the next book from the present one.
#[derive(Clone, Copy, Debug, PartialEq, Eq)]
pub enum Call<'a> {
    Load(Load<'a>),
    Carry(OnPath),
    Prior(Prior),
    Verify(Verify),
    Migrate(Migrate<'a>),
    Open { tier: u64 },
    Nominate(OnPath),
    Award(OnPath),
    Close,
}

/// A query: leaves the book as it is.
#[derive(Clone, Copy, Debug, PartialEq, Eq)]
pub enum Query {
    Limit { holder: u64, sink: u64 },
    Held { holder: u64, path: u64, month: u64 },
    Net { path: u64, month: u64 },
}

/// What one group of a script is answered.
#[derive(Clone, Copy, Debug, PartialEq, Eq)]
pub enum Answer {
    /// A call was accepted.
    Done,
    /// A query was answered.
    Value(u64),
    /// A refusal, by its number.
    Refused(u64),
}

impl Book {
    /// Runs a call. A refusal is its number, and the book is as before.
    pub fn call(&mut self, call: &Call) -> Result<(), u64> {
        match call {
            Call::Load(load) => load::post(self, load),
            Call::Carry(carry) => rights::carry(self, carry),
            Call::Prior(prior) => rights::prior(self, prior),
            Call::Verify(verify) => evidence::verify(self, verify),
            Call::Migrate(migrate) => migrate::migrate(self, migrate),
            Call::Open { tier } => tiers::open(self, *tier),
            Call::Nominate(nominate) => tiers::nominate(self, nominate),
            Call::Award(award) => tiers::award(self, award),
            Call::Close => tiers::close(self),
        }
    }

    /// Answers a query with its value, or refuses it with its number.
    pub fn query(&self, query: &Query) -> Result<u64, u64> {
        match *query {
            Query::Limit { holder, sink } => queries::limit(self, holder, sink),
            Query::Held {
                holder,
                path,
                month,
            } => queries::held(self, holder, path, month),
            Query::Net { path, month } => queries::net(self, path, month),
        }
    }
}
