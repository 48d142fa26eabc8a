//! The scripts that are measured. Each stays within 65,536 bytes and 4,096
//! lines.

/// Four LSEs and two OBAALSEs, four sources, a
/// Default LAP, a Sub-LAP of it, a custom LAP and a scheduling point, and a
/// path from each source to each sink.
fn opening() -> String {
    let mut text = String::from("book,6,4,4,16\n");
    for kind in [1, 1, 1, 1, 2, 2] {
        text += &format!("holder,{kind}\n");
    }
    for (kind, parent) in [(1, 0), (2, 0), (3, 2), (4, 3)] {
        text += &format!("sink,{kind},{parent}\n");
    }
    for path in 0..16 {
        text += &format!("path,{},{}\n", path / 4, path % 4);
    }
    text
}

/// Load, last year's rights and evidence of every holder.
fn postings() -> String {
    let mut text = String::new();
    for holder in 0..6 {
        let sink = if holder < 4 { 0 } else { 3 };
        for term in 0..4 {
            text += &format!("load,{holder},{sink},{term},50,200,2\n");
            text += "block,0,199,90000\nblock,199,1,95000\n";
        }
        text += &format!("carry,{holder},{sink},700\n");
        text += &format!("prior,{holder},{sink},9000,500\n");
        text += &format!("verify,{holder},0,2,80000,70000,1,3,0\n");
    }
    text
}

/// One group of a tier: a nomination, an award, or a query, in turns, over the
/// holders and the paths from source 0.
fn turn(k: usize) -> String {
    let holder = k / 4 % 6;
    let path = if holder < 4 { 0 } else { 3 };
    match k % 4 {
        0 => format!("nominate,{holder},{path},2\n"),
        1 => format!("award,{holder},{path},1\n"),
        2 => format!("limit,{holder},{path}\n"),
        _ => format!("held,{holder},{path},{}\n", k % 3 + 1),
    }
}

/// A season of nine tiers in so many lines, 256 or more: what is left after
/// opening and postings is shared among the tiers.
pub fn season(lines: usize) -> Vec<u8> {
    let mut text = opening() + &postings();
    let fixed = season_lines(&text);
    let left = lines - fixed - 2 * 9 - 3 * 3;
    let mut done = 0;
    for tier in 1..=9 {
        if tier % 2 == 0 && tier > 3 {
            let month = tier / 2 - 1;
            text += &format!("migrate,{month},0,2\nclass,0,1,1,100,900\nclass,1,0,2,10,900\n");
        }
        text += &format!("open,{tier}\n");
        while done < left * tier / 9 {
            text += &turn(done);
            done += 1;
        }
        text += "close\n";
    }
    assert_eq!(season_lines(&text), lines);
    text.into_bytes()
}

fn season_lines(text: &str) -> usize {
    text.bytes().filter(|&byte| byte == b'\n').count()
}

/// One load with a block to each hour, the kW up and down.
pub fn long_load() -> Vec<u8> {
    let mut text = opening() + "load,0,0,0,0,2208,2208\n";
    for hour in 0..2_208 {
        text += &format!("block,{hour},1,{}\n", 40_000 + hour * 7_919 % 30_000);
    }
    text.into_bytes()
}

/// Sixty migrations of 64 class lines among four holders, each with a load and
/// with rights that move along.
pub fn migrations() -> Vec<u8> {
    let mut text = opening() + &postings();
    for k in 0..60 {
        text += "migrate,0,0,64\n";
        for line in 0..64 {
            let from = (line + k) % 4;
            let to = (from + 1 + line % 3) % 4;
            text += &format!("class,{from},{to},1,{},9\n", line % 9 + 1);
        }
    }
    text.into_bytes()
}

/// Calls that are refused, each number in its turn, after postings.
pub fn refusals() -> Vec<u8> {
    const REFUSED: [&str; 12] = [
        "carry,0,00,5\n",
        "carry,6,0,5\n",
        "carry,0,0,0\n",
        "nominate,0,0,5\n",
        "carry,0,0,5\n",
        "load,1,2,0,0,9,0\n",
        "load,1,2,0,0,9,1\nblock,0,8,5\n",
        "migrate,0,0,1\nclass,0,0,1,1,1\n",
        "migrate,0,1,1\nclass,0,1,1,9,999\n",
        "carry,0,3,5\n",
        "open,2\n",
        "award,0,0,5\n",
    ];
    let mut text = opening() + &postings();
    let mut lines = season_lines(&text);
    for refused in REFUSED.iter().cycle() {
        lines += season_lines(refused);
        if lines > 4_096 {
            break;
        }
        text += refused;
    }
    text.into_bytes()
}

/// What an interactive caller sends: a book of one holder, and one query.
pub fn four_lines() -> Vec<u8> {
    b"book,1,0,1,0\nholder,1\nsink,1,0\nlimit,0,0\n".to_vec()
}
