//! 02, S-5: wrong rules for the names that are retired, to see that a comparison catches them.
use driver::dotted;
use driver::script::{Retires, bytes_of};

fn word(words: &[&str], k: usize) -> Vec<u8> {
    bytes_of(words.get(k).copied().unwrap_or("")).into_owned()
}

pub const WRONG: [(&str, Retires); 5] = [
    ("first-segment", |w, after| after && word(w, 1).starts_with(b".")),
    ("any-dot", |w, after| after && word(w, 1).contains(&b'.')),
    ("before-1", |w, after| !after && dotted(&word(w, 1))),
    ("create-alone", |w, after| after && w[0] == "create" && dotted(&word(w, 1))),
    ("directory-too", |w, after| after && (dotted(&word(w, 1)) || dotted(&word(w, 2)))),
];
