//! Each answer is the original's (`same/original`), but those that `same/differences` has with its reason. The script
//! tests/same compares `same/original` with the original itself.
#[cfg(feature = "commonware-codec")]
use iobufs::EncodeExt as _;
use iobufs::{Builder, IoBuf, IoBufMut, IoBufs, IoBufsMut};
use std::collections::HashMap;

include!("same/answers.rs");

#[cfg(feature = "commonware-codec")]
#[path = "same/codec.rs"]
mod codec;
// Ranges that are none, and comparisons as they are made of the original's.
#[allow(clippy::cmp_owned, clippy::op_ref, clippy::ptr_eq, clippy::reversed_empty_ranges)]
#[path = "same/more.rs"]
mod more;

/// The answers of the other files.
const FURTHER: &[fn(&mut Answers)] = &[
    more::of_more,
    #[cfg(feature = "commonware-codec")]
    codec::of_codec,
];

/// The lines of a table, which are names and what comes after an arrow.
fn table(text: &'static str) -> HashMap<&'static str, &'static str> {
    text.lines().map(|line| line.split_once(" -> ").expect("it has an arrow")).collect()
}

/// The names of answers that are neither the original's nor those of the differences, and of differences that are none.
fn wrong(answers: &Answers, original: &HashMap<&str, &str>, differences: &HashMap<&str, &str>) -> Vec<String> {
    let is_wrong = |name: &str, answer: &str| match differences.get(name) {
        Some(other) => answer != *other || original[name] == *other,
        None => answer != original[name],
    };
    answers.iter().filter(|(name, answer)| is_wrong(name, answer)).map(|(name, _)| name.clone()).collect()
}

#[test]
fn answers_are_those_of_the_original() {
    let answers = answers(FURTHER);
    let mut original = table(include_str!("same/original"));
    original.retain(|name, _| cfg!(feature = "commonware-codec") || !name.starts_with("codec: "));
    let mut differences = table(include_str!("same/differences"));
    differences.retain(|name, _| !name.starts_with("use: "));
    for answer in differences.values_mut() {
        *answer = answer.split_once(" | ").expect("a difference has a reason").0;
    }
    assert!(differences.keys().all(|name| original.contains_key(name)));
    assert_eq!((wrong(&answers, &original, &differences), answers.len()), (vec![], original.len()));

    let name = "split_to(6) of a view, static";
    let mut planted = answers;
    planted.iter_mut().filter(|it| it.0 == name).for_each(|it| it.1 = "panics: split_to out of bounds".into());
    assert_eq!(wrong(&planted, &original, &differences), [name]);
}
