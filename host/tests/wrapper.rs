//! The wrapper: what it gives, what it refuses, and what it leaves alone.

mod stored;

use season_book::{answers, answers_into, output_bytes, Refusal};

const OPEN_BOOK: &[u8] = b"book,1,1,1,1\nholder,1\nsink,1,0\npath,0,0\n";

/// A script of the open book and more lines.
fn script(more: &str) -> Vec<u8> {
    [OPEN_BOOK, more.as_bytes()].concat()
}

/// A refused call is an answer, not an error.
#[test]
fn refused_calls_are_answers() {
    let given = answers(&script("carry,0,0,7\ncarry,0,0,7\nnet,0,1\n"));
    assert_eq!(given, Ok(b"ok\nok\nno,05\nok,7\n".to_vec()));
    assert_eq!(answers(b"close\n"), Ok(b"no,01\n".to_vec()));
    assert_eq!(answers(b""), Ok(Vec::new()));
}

/// A script over its limits is refused with 1, whatever is lent.
#[test]
fn too_long_a_script_is_refused() {
    for long in [vec![b'x'; 65_537], vec![b'\n'; 4_097]] {
        assert_eq!(answers(&long), Err(Refusal::ScriptTooLong));
        let mut none = [];
        assert_eq!(answers_into(&long, &mut none), Err(Refusal::ScriptTooLong));
    }
    assert_eq!(answers(&[b'x'; 65_536]), Ok(b"no,01\n".to_vec()));
    assert_eq!(Refusal::ScriptTooLong.number(), 1);
}

/// One byte short of 16 a line is refused with 15, and no byte is written.
#[test]
fn too_short_an_output_is_refused() {
    let script = script("net,0,1\n");
    let mut out = vec![b'#'; output_bytes(&script) - 1];
    assert_eq!(
        answers_into(&script, &mut out),
        Err(Refusal::OutputTooShort)
    );
    assert!(out.iter().all(|&byte| byte == b'#'));
    assert_eq!(Refusal::OutputTooShort.number(), 15);
}

/// Bytes behind the answers stay as they were.
#[test]
fn bytes_after_the_answers_stay() {
    let script = script("net,0,1\n");
    let mut out = vec![b'#'; output_bytes(&script) + 9];
    assert_eq!(answers_into(&script, &mut out), Ok(8));
    assert_eq!(&out[..8], b"ok\nok,0\n");
    assert!(out[8..].iter().all(|&byte| byte == b'#'));
}

/// The errors say their number and their cause.
#[test]
fn refusals_can_be_read() {
    let said = Refusal::OutputTooShort.to_string();
    assert!(
        said.starts_with("no,15: the output has less than 16"),
        "{said}"
    );
    let said = Refusal::ScriptTooLong.to_string();
    assert!(said.starts_with("no,01: the script has over"), "{said}");
}

/// Threads can answer scripts side by side, on the stack that is said.
#[test]
fn threads_answer_side_by_side() {
    let asked = script("carry,0,0,7\nopen,1\nlimit,0,0\nclose\nnet,0,2\n");
    let wanted = Ok(b"ok\nok\nok\nok,0\nok\nok,7\n".to_vec());
    std::thread::scope(|scope| {
        for _ in 0..4 {
            std::thread::Builder::new()
                .stack_size(season_book::STACK_BYTES)
                .spawn_scoped(scope, || assert_eq!(answers(&asked), wanted))
                .expect("a thread");
        }
    });
}

/// The stack that is said is enough for every stored script.
#[test]
fn every_stored_script_runs_on_the_stack_that_is_said() {
    let scripts = stored::scripts();
    let run_all = move || {
        for (name, script) in scripts {
            let known =
                answers(&script) == model::answers(&script).map_err(|_| Refusal::ScriptTooLong);
            assert!(known, "{name}");
        }
    };
    let thread = std::thread::Builder::new().stack_size(season_book::STACK_BYTES);
    thread
        .spawn(run_all)
        .expect("a thread")
        .join()
        .expect("all scripts run");
}
