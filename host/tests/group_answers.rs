//! Answers as values: what each answer says, and which lines of the script it
//! answers.

mod stored;

use season_book::{answers, group_answers, groups, script_lines, Answer, AnswerMismatch, Group};

const OPEN_BOOK: &str = "book,1,1,1,1\nholder,1\nsink,1,0\npath,0,0\n";

/// First line and count of lines of every answered group.
fn places(script: &str) -> Vec<(usize, usize)> {
    let answers = answers(script.as_bytes()).expect("a script within its limits");
    let read = group_answers(script.as_bytes(), &answers).expect("its own answers");
    let place = |group: Group| (group.first_line, group.lines);
    read.iter().map(|one| place(one.group)).collect()
}

/// The groups after the book group of four lines.
fn places_after_book(more: &str) -> Vec<(usize, usize)> {
    let places = places(&format!("{OPEN_BOOK}{more}"));
    assert_eq!(places[0], (1, 4));
    places[1..].to_vec()
}

#[test]
fn a_head_takes_the_lines_that_it_counts() {
    assert_eq!(
        places_after_book("load,0,0,0,0,2,1\nblock,0,2,5\nmigrate,0,0,0\nnet,0,1\n"),
        [(5, 2), (7, 1), (8, 1)]
    );
    assert_eq!(
        places_after_book("migrate,0,0,2\nclass,0,0,1,1,1\nclose\nnet,0,1\n"),
        [(5, 3), (8, 1)]
    );
}

/// A count that is larger than what is left takes all lines left.
#[test]
fn too_few_lines_are_one_group() {
    assert_eq!(
        places_after_book("net,0,1\nload,0,0,0,0,2,999999999\nnet,0,1\nnet"),
        [(5, 1), (6, 3)]
    );
}

/// An unreadable head counts nothing, nor does a second book or a counted line.
#[test]
fn an_unreadable_head_is_a_group_by_itself() {
    for head in [
        "load,0,0,0,0,2,01",
        "load,0,0,0,0,2,1000000000",
        "load,0,0,0,0,2,",
        "load,0,0,0,0,2,+1",
        "load,0,0,0,0,2,1\r",
        "load,0,0,0,0,1",
        "load,0,0,0,0,2,1,1",
        "Load,0,0,0,0,2,1",
        "migrate,0,1",
        "book,1,1,1,1",
        "block,0,2,1",
        "",
    ] {
        let more = format!("{head}\nblock,0,2,5\nnet,0,1\n");
        assert_eq!(
            places_after_book(&more),
            [(5, 1), (6, 1), (7, 1)],
            "{head:?}"
        );
    }
}

/// After a refused book group nothing is answered.
#[test]
fn a_refused_book_group_is_the_only_one() {
    assert_eq!(places("book,1,0,0,0\nholder,3\nnet,0,1\n"), [(1, 2)]);
    assert_eq!(places("book,9,0,0,0\nholder,1\nnet,0,1\n"), [(1, 3)]);
    assert_eq!(places("load,0,0,0,0,2,1\nblock,0,2,5\n"), [(1, 1)]);
    assert_eq!(places("book,0,0,0,0"), [(1, 1)]);
    assert_eq!(places(""), []);
}

/// A line directly after the book lines that begins with `set,` is of their group,
/// and no other line of that word is.
#[test]
fn a_set_line_is_of_the_book_group() {
    let set = "set,3,4,2,3,1,200,1,50,1,5,1,2\n";
    let book = |more: &str| places(&format!("{OPEN_BOOK}{more}"));
    assert_eq!(book(set), [(1, 5)]);
    assert_eq!(book(&format!("{set}net,0,1\n")), [(1, 5), (6, 1)]);
    // A second one, one behind a call, and one that a load counts.
    assert_eq!(book(&set.repeat(2)), [(1, 5), (6, 1)]);
    assert_eq!(
        book(&format!("net,0,1\n{set}net,0,1\n")),
        [(1, 4), (5, 1), (6, 1), (7, 1)]
    );
    assert_eq!(
        book(&format!("{set}load,0,0,0,0,1,1\n{set}net,0,1\n")),
        [(1, 5), (6, 2), (8, 1)]
    );
    // A bare `set` stands by itself, and so does what comes behind it.
    assert_eq!(
        book(&format!("set\n{set}net,0,1\n")),
        [(1, 4), (5, 1), (6, 1), (7, 1)]
    );
    assert_eq!(
        places(&format!("book,0,0,0,0\n{set}close\n")),
        [(1, 2), (3, 1)]
    );
}

/// A `set` line that is refused is the last that is answered, ended by LF or not.
#[test]
fn a_refused_set_line_is_of_the_book_group() {
    for line in [
        "set,",
        "set,\n",
        "set,1,0\n",
        "set,1,0,2,3,1,200,1,50,1,5,1,2\n",
    ] {
        assert_eq!(places(&format!("{OPEN_BOOK}{line}")), [(1, 5)], "{line:?}");
    }
    let more = format!("{OPEN_BOOK}set,x\nnet,0,1\n");
    assert_eq!(places(&more), [(1, 5)]);
    // In place of the last book line, and behind a head that cannot be read.
    assert_eq!(places("book,1,0,0,0\nset,1\nnet,0,1\n"), [(1, 2)]);
    assert_eq!(places("book,1,0,0\nset,1\nnet,0,1\n"), [(1, 1)]);
}

/// What an answer line says, on a script with one group.
fn one_answer(line: &str) -> Result<Answer, AnswerMismatch> {
    let read = group_answers(b"book,0,0,0,0\n", line.as_bytes())?;
    assert_eq!(read.len(), 1);
    Ok(read[0].answer.clone())
}

/// Values may be negative and more than one.
#[test]
fn answers_are_read_as_values() {
    assert_eq!(one_answer("ok\n"), Ok(Answer::Accepted(vec![])));
    assert_eq!(one_answer("ok,7\n"), Ok(Answer::Accepted(vec![7])));
    assert_eq!(
        one_answer("ok,-7,0,3\n"),
        Ok(Answer::Accepted(vec![-7, 0, 3]))
    );
    assert_eq!(one_answer("no,04\n"), Ok(Answer::Refused(4)));
    assert_eq!(one_answer("no,16\n"), Ok(Answer::Refused(16)));
}

#[test]
fn bytes_that_are_no_answers_are_said_to_be_so() {
    for bad in [
        "", "ok", "no\n", "no,1,2\n", "no,x\n", "ok,\n", "yes\n", "\n", "\u{e9}\n",
    ] {
        assert_eq!(one_answer(bad), Err(AnswerMismatch { line: 1 }), "{bad:?}");
    }
    assert_eq!(one_answer("ok\nok\n"), Err(AnswerMismatch { line: 2 }));
    assert_eq!(one_answer("no,16\nok\n"), Err(AnswerMismatch { line: 2 }));
    let two_groups = b"book,0,0,0,0\nclose\n";
    assert_eq!(
        group_answers(two_groups, b"ok\n"),
        Err(AnswerMismatch { line: 2 })
    );
    let said = AnswerMismatch { line: 2 }.to_string();
    assert!(said.starts_with("line 2 of the answers"), "{said}");
}

/// How many answers the library gives to the first lines of a script.
fn answers_to_first(script: &[u8], lines: usize) -> usize {
    let first = script.split_inclusive(|&byte| byte == b'\n').take(lines);
    let answers = answers(&first.collect::<Vec<_>>().concat()).expect("part of a script");
    answers.iter().filter(|&&byte| byte == b'\n').count()
}

/// As many groups as answers. A group begins at the first line with which the
/// script has one answer more, and goes on to where the next begins.
fn check_places(name: &str, script: &[u8]) {
    let Ok(answers) = answers(script) else {
        return;
    };
    let read = group_answers(script, &answers).expect(name);
    assert_eq!(
        read.len(),
        answers.split(|&byte| byte == b'\n').count() - 1,
        "{name}"
    );
    for (place, one) in read.iter().enumerate() {
        let first = one.group.first_line;
        assert_eq!(
            answers_to_first(script, first - 1),
            place,
            "{name}, line {first}"
        );
        assert_eq!(
            answers_to_first(script, first),
            place + 1,
            "{name}, line {first}"
        );
    }
    let ends = read
        .iter()
        .map(|one| one.group.first_line + one.group.lines);
    let begins = read.iter().skip(1).map(|one| one.group.first_line);
    let all = groups(script);
    let after = match all.get(read.len()) {
        Some(group) => group.first_line,
        None => script_lines(script).len() + 1,
    };
    let after = (!read.is_empty()).then_some(after);
    assert!(ends.eq(begins.chain(after)), "{name}");
}

#[test]
fn every_stored_script_has_its_places() {
    for (name, script) in stored::scripts() {
        check_places(&name, &script);
    }
}

#[test]
fn generated_and_damaged_scripts_have_their_places() {
    for seed in 0..300 {
        check_places(&format!("season {seed}"), &model::generate::season(seed));
        check_places(
            &format!("damaged script {seed}"),
            &model::generate::damaged(seed),
        );
    }
}

#[test]
fn lines_are_those_that_are_counted() {
    for (name, script) in stored::scripts() {
        assert_eq!(
            script_lines(&script).len(),
            season_book::count_lines(&script),
            "{name}"
        );
    }
    assert_eq!(script_lines(b"a\n\nb"), [b"a" as &[u8], b"", b"b"]);
}
