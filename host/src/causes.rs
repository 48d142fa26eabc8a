//! The causes of docs/REFUSALS.md in words.

/// The cause of a refused call by its number; none where no cause has it.
pub fn cause(refusal: u64) -> Option<&'static str> {
    let words = match refusal {
        1 => {
            "unreadable: another word or count of fields, no number of 1 to 9 digits, \
             a line of a group missing or of another kind, a last line without LF"
        }
        2 => "a holder, source, sink or path is not in the book",
        3 => "another field is outside its range",
        4 => "not at this time",
        5 => "posted before",
        6 => "the block list is broken, or there is no block",
        7 => "more hours are missing than may be: 1 in 50, or the share that the set line gives",
        8 => "a class line from a holder to itself, or with a holder of kind 2",
        9 => "a loser's m together exceed its load",
        10 => "the sink is not for this holder, or a Sub-LAP in load or tier 1",
        11 => {
            "above the verified kW of the source: there is evidence for the tier's term, \
             and it falls short"
        }
        12 => "above the path's a − l in tier 1",
        13 => "above the tier's limit",
        14 => "an award above what is nominated and unawarded",
        15 => "the output buffer is shorter than 16 bytes a line",
        16 => "a kind, parent, path, count or fraction of the opening breaks the rules",
        17 => "in the Long Term step, above the holder's own tier 1 award on the path",
        18 => "in the Long Term step, a source without ten-year evidence for the season",
        19 => "no evidence of the source for the tier's term, of either kind",
        _ => return None,
    };
    Some(words)
}
