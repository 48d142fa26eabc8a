//! A holder of each kind with tier 1 awards, for the Long Term step.

use super::show;

/// A load of one hour.
pub fn load(holder: u64, sink: u64, term: u64, kw: u64) -> String {
    format!("load,{holder},{sink},{term},0,1,1 => ok\nblock,0,1,{kw}\n")
}

/// One load-serving holder, three sources and two bases. Paths 0 and 1 go from
/// sources 0 and 1 to base 0, path 2 from source 0 to its Sub-LAP, path 3 from
/// source 1 to base 2. No path starts at source 2.
pub const LSE: &str = "
    book,1,3,3,4 => ok
    holder,1
    sink,1,0
    sink,2,0
    sink,3,2
    path,0,0
    path,1,0
    path,0,1
    path,1,2
";

/// One OBAALSE, two sources and a scheduling point.
pub const OBAALSE: &str = "
    book,1,2,1,2 => ok
    holder,2
    sink,4,0
    path,0,0
    path,1,0
";

/// Season load A at base 0, and tier 1 awards on paths 0 and 1, which last year
/// was large enough for.
pub fn awarded(a: u64, on_paths: [u64; 2]) -> String {
    let mut script = load(0, 0, 0, a);
    for (path, kw) in on_paths.into_iter().enumerate() {
        if kw > 0 {
            script.push_str(&format!("prior,0,{path},1000,0 => ok\n"));
        }
    }
    script.push_str("open,1 => ok\n");
    for (path, kw) in on_paths.into_iter().enumerate() {
        if kw > 0 {
            script.push_str(&format!("nominate,0,{path},{kw} => ok\n"));
            script.push_str(&format!("award,0,{path},{kw} => ok\n"));
        }
    }
    script + "close => ok\n"
}

/// A load-serving holder with 300 and 200 kW awarded in tier 1 of a load of
/// 1000, then the evidence, then the step and what runs in it.
#[track_caller]
pub fn show_step(evidence: &str, step: &str) {
    let tier_1 = awarded(1000, [300, 200]);
    show(&format!("{LSE}{tier_1}{evidence}open,10 => ok\n{step}"));
}

/// The same for an OBAALSE, its evidence posted before tier 1.
#[track_caller]
pub fn show_obaalse(evidence: &str, step: &str) {
    let tier_1 = awarded(1000, [300, 200]);
    show(&format!("{OBAALSE}{evidence}{tier_1}open,10 => ok\n{step}"));
}
