//! Pairs of tables that fail in two ways with one move between them: the shorter one by two states that differ in sort.

use super::{edition, field, fields, label, some_shares, Random};
use crate::second::table::{Branch, Field, Kind, Label, Sort, Table, MOST_FIELDS, MOST_STATES};

/// A way to a choice of which one branch leads to two states that differ in sort, and another to two of one sort where what is
/// said is not taken: the first fails with a move less. The way is a chain, or cycles of two lengths that meet there, maybe after
/// hundreds of moves. States are numbered in any order, so that either of the two pairs may be the lower one.
pub fn two_ways_pair(random: &mut Random) -> (Table, Table) {
    if random.one_in(4) {
        return after_cycles(random);
    }
    after_chain(random, 20, MOST_FIELDS)
}

/// The same of small tables, after a chain.
pub fn small_two_ways_pair(random: &mut Random) -> (Table, Table) {
    after_chain(random, 3, 1)
}

/// The texts of such a pair: a chain of choices with one branch each, then the two branches in either order.
pub fn two_ways_texts(random: &mut Random) -> (Vec<u8>, Vec<u8>) {
    let (mut device, mut protocol) = (String::new(), String::new());
    let way = random.below(12);
    for _ in 0..way {
        let (open, name) = (opening(random), *random.pick(&["A", "B0", "Ask", "Abcdefgh"]));
        device += &format!("{open}{name}().");
        protocol += &format!("{open}{name}().");
    }
    let mut unlike = ["end", "+{!U().end}", "&{?U().end}"];
    random.shuffle(&mut unlike);
    let wrong = *random.pick(&[["+{!V().end,!W().end}", "+{!V().end}"], ["&{?V().end}", "&{?V().end,?W().end}"]]);
    let (open, unlike_first) = (opening(random), random.one_in(2));
    for (text, unlike, wrong) in [(&mut device, unlike[0], wrong[0]), (&mut protocol, unlike[1], wrong[1])] {
        let (one, other) = if unlike_first { (unlike, wrong) } else { (wrong, unlike) };
        *text += &format!("{open}A().{one},{}B().{other}{}", &open[2..], "}".repeat(way + 1));
    }
    (device.into_bytes(), protocol.into_bytes())
}

/// How a choice of either sort begins.
fn opening(random: &mut Random) -> &'static str {
    *random.pick(&["+{!", "&{?"])
}

/// A branch of its own label, which is none of those given; owner and target are yet to come.
fn branch(random: &mut Random, but: &[Label], most_fields: usize) -> Branch {
    Branch { owner: 0, label: label(random, but), fields: fields(random, most_fields), share: None, target: 0 }
}

/// What is said in one state, and what is taken there, which is not all of that: the label, the kinds, the least or the greatest
/// number is what differs. Neither label is one of those given.
pub(super) fn said_and_taken(random: &mut Random, but: &[Label]) -> (Branch, Branch) {
    let kind = *random.pick(&[Kind::Int, Kind::Text]);
    let tested = Field { kind, low: 5, high: 9 };
    let said = Branch { fields: vec![field(random), tested], ..branch(random, but, 0) };
    let mut taken = said.clone();
    match random.below(4) {
        0 => taken.label = label(random, &[but, &[said.label]].concat()),
        1 => taken.fields[1].kind = if kind == Kind::Int { Kind::Text } else { Kind::Int },
        2 => taken.fields[1].low += 1,
        _ => taken.fields[1].high -= 1,
    }
    (said, taken)
}

/// The branch, as one of a state to another.
fn lead(table: &mut Table, owner: usize, like: &Branch, target: usize) {
    table.branches.push(Branch { owner, target, ..like.clone() });
}

/// A new state of a sort. Unless it is an end, it has a branch like this one, to a state.
fn leaf(table: &mut Table, sort: Sort, like: &Branch, target: usize) -> usize {
    let state = table.states.len();
    table.states.push(sort);
    if sort != Sort::End {
        lead(table, state, like, target);
    }
    state
}

/// Two sorts that differ.
fn two_sorts(random: &mut Random) -> (Sort, Sort) {
    let mut sorts = [Sort::End, Sort::Sends, Sort::Receives];
    random.shuffle(&mut sorts);
    (sorts[0], sorts[1])
}

/// A sort that is a choice.
fn choice(random: &mut Random) -> Sort {
    *random.pick(&[Sort::Sends, Sort::Receives])
}

/// So many steps to a state that has no branch yet, with branches back and to the end, which is the state after that.
fn chain(random: &mut Random, way: usize, most_fields: usize) -> Table {
    let mut table = Table { states: (0..=way).map(|_| choice(random)).collect(), branches: Vec::new(), edition: 1 };
    table.states.push(Sort::End);
    for owner in 0..way {
        let step = branch(random, &[], most_fields);
        lead(&mut table, owner, &step, owner + 1);
        if random.one_in(2) {
            let aside = branch(random, &[step.label], most_fields);
            let target = if random.one_in(3) { way + 1 } else { random.below(owner + 1) };
            lead(&mut table, owner, &aside, target);
        }
    }
    table
}

/// The same chain in both, and at its last state the two branches; now and then a third that is not taken, so that it fails in
/// both ways with as many moves.
fn after_chain(random: &mut Random, longest: usize, most_fields: usize) -> (Table, Table) {
    let way = random.below(longest + 1);
    let table = chain(random, way, most_fields);
    let (mut device, mut protocol) = (table.clone(), table);
    let one = branch(random, &[], most_fields);
    let another = branch(random, &[one.label], most_fields);
    let (said, taken) = said_and_taken(random, &[one.label, another.label]);
    let (sorts, sort) = (two_sorts(random), choice(random));
    let (of_device, of_protocol) = if sort == Sort::Sends { (&said, &taken) } else { (&taken, &said) };
    for (table, unlike, last) in [(&mut device, sorts.0, of_device), (&mut protocol, sorts.1, of_protocol)] {
        let unlike = leaf(table, unlike, &one, way + 1);
        let wrong = leaf(table, sort, last, way + 1);
        lead(table, way, &one, unlike);
        lead(table, way, &another, wrong);
    }
    if random.one_in(4) {
        let speaks = if device.states[way] == Sort::Sends { &mut device } else { &mut protocol };
        lead(speaks, way, &said, way + 1);
    }
    (finished(random, device), finished(random, protocol))
}

/// Cycles of two lengths without a common factor. The speaker has the two branches in one state, the hearer in all of its states;
/// they fail as said from one of the hearer's, and lead to where all is well from the others.
fn after_cycles(random: &mut Random) -> (Table, Table) {
    let sort = choice(random);
    let (speaking, hearing) = coprime(random, MOST_STATES - 4);
    let step = branch(random, &[], 2);
    let one = branch(random, &[step.label], 2);
    let another = branch(random, &[step.label, one.label], 2);
    let (said, taken) = said_and_taken(random, &[]);
    let mut speaks = cycle(speaking, sort, &step);
    let mut hears = cycle(hearing, sort, &step);
    let (asking, deaf) = (random.below(speaking), random.below(hearing));

    let end = leaf(&mut speaks, Sort::End, &said, 0);
    let says = leaf(&mut speaks, sort, &said, end);
    lead(&mut speaks, asking, &one, end);
    lead(&mut speaks, asking, &another, says);

    let end = leaf(&mut hears, Sort::End, &said, 0);
    let unlike = leaf(&mut hears, choice(random), &said, end);
    let takes = leaf(&mut hears, sort, &said, end);
    let wrong = leaf(&mut hears, sort, &taken, end);
    for state in 0..hearing {
        let (left, right) = if state == deaf { (unlike, wrong) } else { (end, takes) };
        lead(&mut hears, state, &one, left);
        lead(&mut hears, state, &another, right);
    }
    let (speaks, hears) = (finished(random, speaks), finished(random, hears));
    match sort {
        Sort::Receives => (hears, speaks),
        Sort::End | Sort::Sends => (speaks, hears),
    }
}

/// Two lengths without a common factor, one or both near the longest.
fn coprime(random: &mut Random, longest: usize) -> (usize, usize) {
    let common = |(one, other): (usize, usize)| (2..=one.min(other)).any(|factor| one % factor == 0 && other % factor == 0);
    loop {
        let lengths = (1 + random.below(longest), longest - random.below(6));
        if !common(lengths) {
            return if random.one_in(2) { lengths } else { (lengths.1, lengths.0) };
        }
    }
}

/// So many states of one sort, each with a branch like this one to the next.
fn cycle(length: usize, sort: Sort, step: &Branch) -> Table {
    let mut table = Table { states: vec![sort; length], branches: Vec::new(), edition: 1 };
    for owner in 0..length {
        lead(&mut table, owner, step, (owner + 1) % length);
    }
    table
}

/// The table under either edition, with its states, but for the first, and its branches in another order; at times with shares.
fn finished(random: &mut Random, table: Table) -> Table {
    let mut places: Vec<usize> = (1..table.states.len()).collect();
    random.shuffle(&mut places);
    places.insert(0, 0);
    let mut new = Table { edition: edition(random), ..table.clone() };
    for (state, &place) in places.iter().enumerate() {
        new.states[place] = table.states[state];
    }
    for branch in &mut new.branches {
        (branch.owner, branch.target) = (places[branch.owner], places[branch.target]);
    }
    random.shuffle(&mut new.branches);
    if random.one_in(4) {
        some_shares(random, &mut new);
    }
    new
}
