//! The typed layer: any number in any field, and a book that a refusal leaves
//! as it was.

use model::generate::Random;
use model::{
    Block, Book, Call, ClassLine, Fraction, Load, Migrate, OnPath, Opening, Prior, Query, Settings,
    Verify,
};

fn opening() -> Opening {
    Opening {
        holders: 3,
        sources: 2,
        sinks: 3,
        paths: 4,
        holder_kinds: vec![1, 1, 2],
        sink_kinds: vec![1, 2, 4],
        sink_parents: vec![0, 0, 2],
        path_sources: vec![0, 1, 0, 1],
        path_sinks: vec![0, 1, 2, 2],
        settings: Settings::PRESENT,
    }
}

/// Numbers near every bound, and at the ends of what a number can be.
const NUMBERS: [u64; 24] = [
    0,
    1,
    2,
    3,
    4,
    8,
    9,
    10,
    16,
    64,
    200,
    2_208,
    2_209,
    10_000,
    10_001,
    9_999_999,
    10_000_000,
    99_999_999,
    100_000_000,
    1 << 32,
    1 << 63,
    u64::MAX / 50,
    u64::MAX - 1,
    u64::MAX,
];

/// Mostly small numbers, so that many calls are accepted.
fn any(random: &mut Random) -> u64 {
    match random.up_to(7) {
        0 => random.select(&NUMBERS),
        1 => random.between(1, 1_000),
        _ => random.up_to(3),
    }
}

fn on_path(random: &mut Random) -> OnPath {
    OnPath {
        holder: any(random),
        path: any(random),
        kw: any(random),
    }
}

fn any_query(random: &mut Random) -> Query {
    let (holder, path, month) = (any(random), any(random), any(random));
    match random.up_to(2) {
        0 => Query::Limit { holder, sink: path },
        1 => Query::Held {
            holder,
            path,
            month,
        },
        _ => Query::Net { path, month },
    }
}

fn any_call<'a>(random: &mut Random, blocks: &'a [Block], lines: &'a [ClassLine]) -> Call<'a> {
    match random.up_to(9) {
        0 | 1 => Call::Load(Load {
            holder: any(random),
            sink: any(random),
            term: any(random),
            contract: any(random),
            hours: any(random),
            blocks,
        }),
        2 => Call::Carry(on_path(random)),
        3 => Call::Prior(Prior {
            holder: any(random),
            path: any(random),
            allocated: any(random),
            long_term: any(random),
        }),
        4 => Call::Verify(Verify {
            holder: any(random),
            source: any(random),
            kind: any(random),
            capacity: any(random),
            right: any(random),
            first_month: any(random),
            last_month: any(random),
            ten_year: any(random),
        }),
        5 => Call::Migrate(Migrate {
            term: any(random),
            sink: any(random),
            lines,
        }),
        6 => Call::Open { tier: any(random) },
        7 => Call::Nominate(on_path(random)),
        8 => Call::Award(on_path(random)),
        _ => Call::Close,
    }
}

fn any_blocks(random: &mut Random) -> Vec<Block> {
    let count = random.below(4);
    let block = |random: &mut Random| Block {
        first: any(random),
        length: any(random),
        kw: any(random),
    };
    (0..count).map(|_| block(random)).collect()
}

fn any_lines(random: &mut Random) -> Vec<ClassLine> {
    let count = random.below(4);
    let line = |random: &mut Random| ClassLine {
        from: any(random),
        to: any(random),
        class: any(random),
        customers: any(random),
        watts: any(random),
    };
    (0..count).map(|_| line(random)).collect()
}

/// Refusals by cause: a refusal returns its number alone, 2 to 14 or 17 to 19,
/// and the book is unchanged; a query never changes it. Any number in any field.
#[test]
fn any_numbers_are_answered_and_refusals_leave_the_book_as_it_was() {
    let mut random = Random::new(7);
    let (mut accepted, mut refused) = (0, 0);
    for _ in 0..60 {
        let mut book = Book::open(&opening()).expect("a book that keeps the rules");
        for _ in 0..600 {
            let (blocks, lines) = (any_blocks(&mut random), any_lines(&mut random));
            let call = any_call(&mut random, &blocks, &lines);
            let before = book.clone();
            match book.call(&call) {
                Ok(()) => accepted += 1,
                Err(number) => {
                    let known = (2..=14).contains(&number) || (17..=19).contains(&number);
                    assert!(known, "{call:?}");
                    assert!(book == before, "{call:?}");
                    refused += 1;
                }
            }
            if let Err(number) = book.query(&any_query(&mut random)) {
                assert!((2..=4).contains(&number));
            }
        }
    }
    assert!(accepted > 500 && refused > 500);
}

/// The book: every count and list of an opening can hold any number.
#[test]
fn any_opening_is_a_book_or_16() {
    let mut random = Random::new(8);
    let mut opened = 0;
    for _ in 0..20_000 {
        let mut opening = opening();
        let lists = [
            &mut opening.holder_kinds,
            &mut opening.sink_kinds,
            &mut opening.sink_parents,
            &mut opening.path_sources,
            &mut opening.path_sinks,
        ];
        for list in lists {
            if random.one_in(3) {
                let place = random.below(list.len());
                list[place] = any(&mut random);
            }
        }
        let counts = [
            &mut opening.holders,
            &mut opening.sources,
            &mut opening.sinks,
            &mut opening.paths,
        ];
        for count in counts {
            if random.one_in(12) {
                *count = any(&mut random);
            }
        }
        if random.one_in(4) {
            let mut numbers = opening.settings.numbers();
            let place = random.below(numbers.len());
            numbers[place] = any(&mut random);
            opening.settings = Settings::from_numbers(numbers);
        }
        match Book::open(&opening) {
            Ok(_) => opened += 1,
            Err(number) => assert_eq!(number, 16),
        }
    }
    assert!(opened > 500);
}

/// 02, 3/14: the opening takes the settings; a bad pair, in whichever place, is
/// 16, and the book has the settings that it was opened with.
#[test]
fn settings_of_an_opening_are_the_books_or_16() {
    assert_eq!(Opening::default().settings, Settings::PRESENT);
    let opened = Book::open(&opening()).expect("a book");
    assert_eq!(opened.settings(), Settings::PRESENT);
    let with = |place: usize, numerator, denominator| {
        let mut fractions = Settings::PRESENT.in_order();
        fractions[place] = Fraction::new(numerator, denominator);
        let mut opening = opening();
        opening.settings = Settings::from_order(fractions);
        (opening.settings, Book::open(&opening))
    };
    for place in 0..6 {
        for (numerator, denominator) in [(0, 1), (1, 1), (0, 1_000), (1_000, 1_000), (2, 3)] {
            let (settings, book) = with(place, numerator, denominator);
            assert_eq!(book.map(|book| book.settings()), Ok(settings));
        }
        for (numerator, denominator) in [
            (0, 0),
            (2, 1),
            (1_000, 999),
            (0, 1_001),
            (1_001, 1_001),
            (u64::MAX, u64::MAX),
            (u64::MAX, 1),
        ] {
            let (_, book) = with(place, numerator, denominator);
            assert_eq!(book, Err(16), "{place}: {numerator}/{denominator}");
        }
    }
}

/// The book: a list longer or shorter than its count is a broken count.
#[test]
fn lists_that_do_not_match_their_counts_are_16() {
    assert!(Book::open(&opening()).is_ok());
    let lists: [fn(&mut Opening) -> &mut Vec<u64>; 5] = [
        |o| &mut o.holder_kinds,
        |o| &mut o.sink_kinds,
        |o| &mut o.sink_parents,
        |o| &mut o.path_sources,
        |o| &mut o.path_sinks,
    ];
    for list in lists {
        let mut longer = opening();
        let last = *list(&mut longer).last().expect("no list is empty");
        list(&mut longer).push(last);
        assert_eq!(Book::open(&longer), Err(16));
        let mut shorter = opening();
        list(&mut shorter).pop();
        assert_eq!(Book::open(&shorter), Err(16));
    }
}

/// Posting, migration: more lines than a call takes are 3 here as well.
#[test]
fn more_blocks_or_class_lines_than_a_call_takes_are_3() {
    let mut book = Book::open(&opening()).expect("a book");
    let block = |first| Block {
        first,
        length: 1,
        kw: 1,
    };
    let blocks: Vec<Block> = (0..2_209).map(block).collect();
    let load = |blocks| {
        Call::Load(Load {
            holder: 0,
            sink: 0,
            term: 0,
            contract: 0,
            hours: 2_208,
            blocks,
        })
    };
    assert_eq!(book.call(&load(&blocks)), Err(3));
    assert_eq!(book.call(&load(&blocks[..2_208])), Ok(()));
    let line = ClassLine {
        from: 0,
        to: 1,
        class: 1,
        customers: 0,
        watts: 0,
    };
    let lines = [line; 65];
    let migrate = |lines| {
        Call::Migrate(Migrate {
            term: 0,
            sink: 0,
            lines,
        })
    };
    assert_eq!(book.call(&migrate(&lines)), Err(3));
    assert_eq!(book.call(&migrate(&lines[..64])), Ok(()));
}

/// A load of 100 kW in the season, for holder 0 at sink 0.
fn post_100_kw(book: &mut Book) {
    let block = Block {
        first: 0,
        length: 1,
        kw: 100,
    };
    let load = Load {
        holder: 0,
        sink: 0,
        term: 0,
        contract: 0,
        hours: 1,
        blocks: &[block],
    };
    assert_eq!(book.call(&Call::Load(load)), Ok(()));
}

/// Close: nominated kW goes down to the awarded, in the tier closed.
#[test]
fn close_puts_nominations_down_to_awards() {
    let mut book = Book::open(&opening()).expect("a book");
    post_100_kw(&mut book);
    let on_path = |kw| OnPath {
        holder: 0,
        path: 0,
        kw,
    };
    let calls = [
        Call::Open { tier: 1 },
        Call::Close,
        Call::Open { tier: 2 },
        Call::Nominate(on_path(30)),
        Call::Award(on_path(12)),
    ];
    calls
        .iter()
        .for_each(|call| assert_eq!(book.call(call), Ok(())));
    assert_eq!(
        (book.nominated(0, 0, 2), book.tier_awards(0, 0, 2)),
        (30, 12)
    );
    assert_eq!((book.open_tier(), book.last_closed()), (Some(2), 1));
    assert_eq!(book.call(&Call::Close), Ok(()));
    assert_eq!(
        (book.nominated(0, 0, 2), book.tier_awards(0, 0, 2)),
        (12, 12)
    );
    assert_eq!((book.open_tier(), book.last_closed()), (None, 2));
}
