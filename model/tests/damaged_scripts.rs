//! Damaged scripts: whatever the bytes, the host gets a sound number.

use model::generate::damaged;

/// `ok`, `ok,V` or `no,NN`, V being a number and NN a cause of the script.
fn well_formed(answer: &[u8]) -> bool {
    let digits = |text: &[u8]| text.iter().all(u8::is_ascii_digit);
    match answer {
        b"ok" => true,
        [b'o', b'k', b',', value @ ..] => {
            let leading_zero = value.len() > 1 && value[0] == b'0';
            !value.is_empty() && value.len() <= 12 && digits(value) && !leading_zero
        }
        [b'n', b'o', b',', tens @ b'0'..=b'1', ones @ b'0'..=b'9'] => {
            let number = (tens - b'0') * 10 + (ones - b'0');
            (1..=19).contains(&number) && number != 15
        }
        _ => false,
    }
}

/// Checks one script; true if it was run, false if it was over the limits.
fn check(script: &[u8], seed: u64) -> bool {
    let ended = script.iter().filter(|&&byte| byte == b'\n').count();
    let lines = ended + usize::from(script.last().is_some_and(|&byte| byte != b'\n'));
    let mut out = vec![0xC3; 16 * lines + 5];
    let number = model::run(script, &mut out);
    if script.len() > 65_536 || lines > 4_096 {
        assert_eq!(number, 1_000_000, "seed {seed}");
        assert!(out.iter().all(|&byte| byte == 0xC3), "seed {seed}");
        assert_eq!(model::answers(script), Err(1), "seed {seed}");
        return false;
    }
    let written = number as usize;
    assert!(number < 1_000_000 && written <= 16 * lines, "seed {seed}");
    assert!(
        out[written..].iter().all(|&byte| byte == 0xC3),
        "seed {seed}"
    );
    let answers = &out[..written];
    assert_eq!(
        model::answers(script).as_deref(),
        Ok(answers),
        "seed {seed}"
    );
    assert!(
        answers.is_empty() || answers.ends_with(b"\n"),
        "seed {seed}"
    );
    let count = answers.iter().filter(|&&byte| byte == b'\n').count();
    assert!(count <= lines && (count > 0) == (lines > 0), "seed {seed}");
    for answer in answers.split(|&byte| byte == b'\n').take(count) {
        assert!(well_formed(answer), "seed {seed}: {answer:?}");
    }
    true
}

/// Script and host, over 20,000 damaged scripts: no panic, a sound number,
/// bytes beyond the written length untouched, no more answers than lines,
/// every answer well formed.
#[test]
fn damaged_scripts_never_panic() {
    let mut run = 0;
    for seed in 0..20_000 {
        let script = damaged(seed);
        let checked = std::panic::catch_unwind(|| check(&script, seed));
        match checked {
            Ok(ran) => run += u64::from(ran),
            Err(broken) => {
                eprintln!("damaged script of seed {seed}");
                std::panic::resume_unwind(broken);
            }
        }
    }
    assert!(run > 15_000, "only {run} were run");
}

/// Random bytes in the form of lines: the words of a script in any order.
#[test]
fn scripts_of_shuffled_words_never_panic() {
    let words = [
        "book", "holder", "sink", "path", "load", "block", "carry", "prior", "verify", "migrate",
        "class", "open", "nominate", "award", "close", "limit", "held", "net", "set", "",
    ];
    let mut random = model::generate::Random::new(3);
    for seed in 0..5_000 {
        let mut script = b"book,1,1,1,1\nholder,1\nsink,1,0\npath,0,0\n".to_vec();
        for _ in 0..random.below(40) {
            script.extend_from_slice(random.select(&words).as_bytes());
            for _ in 0..random.below(14) {
                let number = random.up_to(3);
                script.extend_from_slice(format!(",{number}").as_bytes());
            }
            script.push(b'\n');
        }
        assert!(check(&script, seed));
    }
}
