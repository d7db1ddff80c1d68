//! What damage adds to the answers.

/// Every answer that only a damaged block gets.
pub const DAMAGED: [&str; 12] = [
    "release 6",
    "release 7",
    "in place 6",
    "in place 7",
    "aligned in place 6",
    "aligned in place 7",
    "move 6",
    "move 7",
    "aligned move 6",
    "aligned move 7",
    "measure 6",
    "measure 7",
];
