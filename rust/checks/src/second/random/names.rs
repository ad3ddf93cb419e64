//! Names after the dot of a `rec`.

use super::{joined, tokens, Limits, Random};
use crate::second::text::{read, MOST_OPEN};
use crate::second::tree::{opening, tree, Open, Place};

/// Names for `rec`s; few, so that one often hides another.
pub(super) const NAMES: [&[u8]; 7] = [b"X", b"Y", b"Z", b"A", b"Xx", b"Abcdefgh", b"Loop9"];

/// `rec`, a name and the dot.
pub(super) fn rec_of(name: &[u8]) -> [Vec<u8>; 3] {
    [b"rec".to_vec(), name.to_vec(), b".".to_vec()]
}

/// A type replaced by `rec`s with a name after them, a `rec` put before the whole type at times: questions 4 and 5, and texts that
/// are read. Now and then the type stands on behind its first token.
pub fn put_name_after_recs(random: &mut Random, tokens: &mut Vec<Vec<u8>>) {
    if random.one_in(2) {
        let first = opening(tokens);
        tokens.splice(first..first, rec_of(random.pick::<&[u8]>(&NAMES)));
    }
    let Some(tree) = tree(tokens) else {
        return;
    };
    let places = tree.places();
    let place = random.pick(&places);
    let put = name_after_recs(random, place);
    let mut replaced = place.of.tokens.clone();
    if random.one_in(6) {
        replaced.end = replaced.start + 1;
    }
    tokens.splice(replaced, put);
}

/// `rec`s, a few or as many as may be open at a place, now and then one more, and a name: mostly that of a `rec` around a choice,
/// else of any around, of one of the new ones, or any.
fn name_after_recs(random: &mut Random, place: &Place) -> Vec<Vec<u8>> {
    let room = MOST_OPEN.saturating_sub(place.around.len());
    let recs = match random.below(12) {
        0 => room,
        1 => room + 1,
        _ => 1 + random.below(3),
    };
    let new: Vec<&[u8]> = (0..recs).map(|_| *random.pick(&NAMES)).collect();
    let outermost = |count: usize| place.around[..count].iter().filter_map(Open::name).collect::<Vec<_>>();
    let around = outermost(place.around.len());
    let outside = outermost(place.around.len() - place.recs_before());
    let name = match random.below(8) {
        0..=3 if !outside.is_empty() => random.pick(&outside),
        0..=4 if !around.is_empty() => random.pick(&around),
        5 | 6 if !new.is_empty() => random.pick(&new),
        _ => random.pick(&NAMES),
    };
    new.iter().flat_map(|name| rec_of(name)).chain([name.to_vec()]).collect()
}

/// The tokens of a text that is read, mostly with a name after the dot of a `rec`.
pub fn named_tokens(random: &mut Random, limits: Limits) -> Vec<Vec<u8>> {
    for _ in 0..20 {
        let mut tokens = tokens(random, limits);
        put_name_after_recs(random, &mut tokens);
        if read(&joined(random, &tokens)).is_ok() {
            return tokens;
        }
    }
    tokens(random, limits)
}
