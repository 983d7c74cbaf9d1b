//! The words of the refusal numbers, from `bindings/numbers.tsv`.

/// When a number is given.
pub(crate) fn of(number: u32) -> &'static str {
    match number {
        // numbers.tsv: begin; bindings/words writes these
        1 => "W is outside 6 to 256",
        2 => "R is outside 1 to 1,024",
        3 => "d is outside 1 to 1,000,000",
        4 => "u is greater than d",
        5 => "A is outside 1 to 1,000,000",
        6 => "r is greater than 10,000",
        7 => "h is outside 1 to 62,500",
        8 => "h is less than u + c + 2, where c is r * A / (1,000,000 + r) rounded up",
        9 => "A is less than 16h",
        11 => "the count of neighbours is neither 2 nor 3",
        12 => "a stamp that is not silent, or the first reading of a running tile, is outside 0 to 2^41 - 1",
        13 => "more than one stamp is silent",
        21 => "something lent is not as long as W asks",
        22 => "a mark is set beyond column W - 1",
        23 => "the row before has a correct tile with a time above 2^40 - 1",
        24 => "more than one of a tile's senders is faulty",
        25 => "the drift of a tile is greater than r",
        26 => "the delay of a correct sender is outside d - u to d, or a faulty sender's pulse, unless silent, arrives after 2^40 - 1",
        31 => "a correct tile has a time above 2^41 - 1",
        41 => "the tag is not the one due",
        42 => "the length is not the one due",
        43 => "the file stops before the field due is complete",
        44 => "the file goes on after its last field",
        45 => "a time of row 0 is above 2^39 - 1",
        51 => "n is outside 1 to 64",
        52 => "no closed wave is held",
        53 => "the phase of a tile is greater than 999,999",
        54 => "the sender is none of the tile's predecessors",
        // numbers.tsv: end
        _ => "no such number",
    }
}
