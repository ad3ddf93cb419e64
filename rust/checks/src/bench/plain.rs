//! A monitor over the same tables and states in plain safe Rust: the questions of the documents, asked as a Rust programmer would.

use sojimu::{Due, Party, Question, Reason, Standing, State, Table, Verdict, MOST_BRANCHES, MOST_FIELDS, MOST_STATES};

/// The most that n is raised to.
const MOST_COUNTED: u16 = 10_000;

/// Question 9: is the table sound?
pub fn sound(table: &Table) -> bool {
    let (states, branches) = (table.states as usize, table.branches as usize);
    if !(1..=MOST_STATES).contains(&states) || branches > MOST_BRANCHES || !(1..=2).contains(&table.edition) {
        return false;
    }
    let (sort, owner, target) = (&table.sort[..states], &table.owner[..branches], &table.target[..branches]);
    let (fields, high, low) = (&table.fields[..branches], &table.label_high[..branches], &table.label_low[..branches]);
    if sort.iter().any(|&sort| sort > 2)
        || owner.iter().chain(target).any(|&state| state >= table.states)
        || fields.iter().any(|&count| count as usize > MOST_FIELDS)
    {
        return false;
    }
    let choices = (0..states).filter(|&state| sort[state] != 0).fold(0u32, |set, state| set | 1 << state);
    let owners = owner.iter().fold(0u32, |set, &state| set | 1 << state);
    choices == owners
        && high.iter().zip(low).all(|(&high, &low)| legal_label(u64::from(high) << 32 | u64::from(low)))
        && (0..branches).all(|branch| ranges_legal(table, branch))
        && labels_differ(owner, high, low)
        && shares_right(owner, &table.share[..branches])
}

/// The branches of a choice have no shares, or each has one, and they add to 1000.
fn shares_right(owner: &[u32], share: &[u32]) -> bool {
    if share.iter().all(|&share| share == 0) {
        return true;
    }
    let (mut sums, mut without) = ([0; MOST_STATES], 0u32);
    for (&owner, &share) in owner.iter().zip(share) {
        if share > 1000 {
            return false;
        }
        sums[owner as usize] += share;
        without |= u32::from(share == 0) << owner;
    }
    sums.into_iter().enumerate().all(|(state, sum)| sum == 0 || (sum == 1000 && without & 1 << state == 0))
}

/// What is not filling is a letter or digit, the first a capital.
fn legal_label(label: u64) -> bool {
    let bytes = label.to_be_bytes();
    let length = bytes.len() - label.trailing_zeros() as usize / 8;
    bytes[0].is_ascii_uppercase() && bytes[..length].iter().all(u8::is_ascii_alphanumeric)
}

fn ranges_legal(table: &Table, branch: usize) -> bool {
    let places = MOST_FIELDS * branch..MOST_FIELDS * branch + table.fields[branch] as usize;
    let (kind, low, high) = (&table.kind[places.clone()], &table.low[places.clone()], &table.high[places]);
    let within = |kind, number: u32| holds(kind, number.wrapping_sub(1 << 31) as i32);
    kind.iter().zip(low).zip(high).all(|((&kind, &low), &high)| low <= high && within(kind, low) && within(kind, high))
}

fn holds(kind: u32, number: i32) -> bool {
    match kind {
        0 => true,
        1 => (0..=64).contains(&number),
        2 => (0..=1).contains(&number),
        _ => false,
    }
}

/// Within a state. Few branches are compared in pairs, many sorted.
fn labels_differ(owner: &[u32], high: &[u32], low: &[u32]) -> bool {
    let branches = owner.len();
    if branches <= 24 {
        let met = |i: usize| {
            let mut before = high[..i].iter().zip(&low[..i]).zip(&owner[..i]);
            before.any(|((&h, &l), &o)| h == high[i] && l == low[i] && o == owner[i])
        };
        return !(1..branches).any(met);
    }
    let mut all = [(0, 0, 0); MOST_BRANCHES];
    let all = &mut all[..branches];
    all.iter_mut().zip(high.iter().zip(low).zip(owner)).for_each(|(one, ((&high, &low), &owner))| *one = (high, low, owner));
    all.sort_unstable();
    all.windows(2).all(|pair| pair[0] != pair[1])
}

/// A message's parts, where they stand.
pub struct Parsed<'a> {
    /// The label's eight bytes.
    pub label: &'a [u8; 8],
    /// The kinds.
    pub kinds: &'a [u8],
    numbers: &'a [u8],
    /// The bytes of the whole message, its texts included.
    pub length: usize,
}

impl Parsed<'_> {
    /// The fields' numbers.
    pub fn numbers(&self) -> impl Iterator<Item = i32> + '_ {
        self.numbers.chunks_exact(4).map(|bytes| i32::from_be_bytes([bytes[0], bytes[1], bytes[2], bytes[3]]))
    }

    /// Question 22, of the bytes of the whole message: is every text well-formed UTF-8?
    #[inline]
    pub fn texts_well_formed(&self, bytes: &[u8]) -> bool {
        let mut rest = &bytes[9 + 5 * self.kinds.len()..];
        rest.is_empty()
            || self.kinds.iter().zip(self.numbers()).filter(|(&kind, _)| kind == 1).all(|(_, length)| {
                let (text, behind) = rest.split_at(length as usize);
                rest = behind;
                std::str::from_utf8(text).is_ok()
            })
    }
}

/// Questions 13 and 14 of bytes that may go on. Inline, for the scanner's monitor is faster so.
#[inline]
pub fn front(bytes: &[u8]) -> Result<Parsed<'_>, Question> {
    let (label, rest) = bytes.split_first_chunk::<8>().ok_or(Question::BAD_FRONT)?;
    let (&count, rest) = rest.split_first().ok_or(Question::BAD_FRONT)?;
    let count = usize::from(count);
    if !legal_label(u64::from_be_bytes(*label)) || count > MOST_FIELDS || rest.len() < 5 * count {
        return Err(Question::BAD_FRONT);
    }
    let (kinds, rest) = rest.split_at(count);
    let mut parsed = Parsed { label, kinds, numbers: &rest[..4 * count], length: 9 + 5 * count };
    let mut texts = 0;
    for (&kind, number) in kinds.iter().zip(parsed.numbers()) {
        if !holds(kind.into(), number) {
            return Err(Question::BAD_FIELD);
        }
        if kind == 1 {
            texts += number as usize;
        }
    }
    parsed.length += texts;
    Ok(parsed)
}

/// Questions 13, 14, 15 and 22.
pub fn parse(bytes: &[u8]) -> Result<Parsed<'_>, Question> {
    let parsed = front(bytes)?;
    if parsed.length != bytes.len() {
        Err(Question::OTHER_LENGTH)
    } else if parsed.texts_well_formed(bytes) {
        Ok(parsed)
    } else {
        Err(Question::NOT_UTF8)
    }
}

/// One step.
#[inline(never)]
pub fn step(table: &Table, state: &mut State, side: Party, message: &[u8], out: &mut [u8]) -> Verdict {
    match chosen(table, state, side, message, out.len()) {
        Err(question) => Verdict::Refused(question),
        Ok(Ok(branch)) => {
            out[..message.len()].copy_from_slice(message);
            let n = &mut state.n[usize::from(state.position)];
            if *n < MOST_COUNTED {
                *n += 1;
                state.k[branch] += 1;
            }
            state.position = table.target[branch] as u8;
            Verdict::Forwarded
        }
        Ok(Err(reason)) => {
            state.standing = match side {
                Party::Device => Standing::DEVICE_BLAMED,
                Party::Host => Standing::HOST_BLAMED,
            };
            Verdict::Blamed(side, reason)
        }
    }
}

/// The questions of a step, then the judgement.
fn chosen(table: &Table, state: &State, side: Party, message: &[u8], room: usize) -> Result<Result<usize, Reason>, Question> {
    let early = turn(table, state)? != side;
    if early && table.edition == 1 {
        return Err(Question::OUT_OF_TURN);
    }
    let parsed = parse(message)?;
    if room < message.len() {
        return Err(Question::OUTPUT_TOO_SHORT);
    }
    Ok(if early { Err(Reason::Early) } else { judge(table, state.position, &parsed) })
}

/// Questions 9, 10 and 11, and then whose turn it is.
fn turn(table: &Table, state: &State) -> Result<Party, Question> {
    if !sound(table) || u32::from(state.position) >= table.states || !counts_sound(table, state) {
        return Err(Question::UNSOUND);
    }
    if state.standing != Standing::RUNNING {
        return Err(Question::NOT_RUNNING);
    }
    match table.sort[usize::from(state.position)] {
        0 => Err(Question::AT_END),
        1 => Ok(Party::Device),
        _ => Ok(Party::Host),
    }
}

/// Question 9 of a state's setting and counts, under a sound table: each choice's k add up to its n, at most 10,000.
fn counts_sound(table: &Table, state: &State) -> bool {
    let (states, branches) = (table.states as usize, table.branches as usize);
    let mut sums = [0; MOST_STATES];
    table.owner[..branches].iter().zip(&state.k).for_each(|(&owner, &k)| sums[owner as usize] += u32::from(k));
    let mut counted = table.sort[..states].iter().zip(&state.n).zip(sums);
    (1..=1000).contains(&state.setting)
        && counted.all(|((&sort, &n), sum)| sort == 0 || (n <= MOST_COUNTED && sum == u32::from(n)))
}

/// The branch that the message takes.
fn judge(table: &Table, position: u8, message: &Parsed<'_>) -> Result<usize, Reason> {
    let branches = table.branches as usize;
    let label = u64::from_be_bytes(*message.label);
    let (high, low) = ((label >> 32) as u32, label as u32);
    let labels = table.label_high[..branches].iter().zip(&table.label_low[..branches]);
    let mut owned = table.owner[..branches].iter().zip(labels);
    let own = |(&owner, label): (&u32, (&u32, &u32))| label == (&high, &low) && owner == u32::from(position);
    let branch = owned.position(own).ok_or(Reason::NoLabel)?;
    let places = MOST_FIELDS * branch..MOST_FIELDS * branch + table.fields[branch] as usize;
    if !table.kind[places.clone()].iter().copied().eq(message.kinds.iter().map(|&kind| kind.into())) {
        return Err(Reason::OtherKinds);
    }
    let ranges = table.low[places.clone()].iter().zip(&table.high[places]);
    let inside = |(number, (&low, &high)): (i32, (&u32, &u32))| (low..=high).contains(&(number as u32).wrapping_add(1 << 31));
    match message.numbers().zip(ranges).position(|field| !inside(field)) {
        Some(field) => Err(Reason::OutOfRange(field as u8)),
        None => Ok(branch),
    }
}

/// The due message.
#[inline(never)]
pub fn due<'a>(table: &Table, state: &State, device: &'a [u8], host: &'a [u8]) -> Due<'a> {
    let Ok(side) = turn(table, state) else {
        return Due { side: Party::Device, message: &device[..0] };
    };
    let waiting = if side == Party::Device { device } else { host };
    let length = match front(waiting) {
        Ok(parsed) if parsed.length <= waiting.len() => parsed.length,
        _ => 0,
    };
    Due { side, message: &waiting[..length] }
}

/// The message of a branch.
#[inline(never)]
pub fn make(table: &Table, branch: u32, high: Option<u32>, out: &mut [u8]) -> Result<usize, Question> {
    if !sound(table) {
        return Err(Question::UNSOUND);
    }
    let at = branch as usize;
    if branch >= table.branches || high.is_some_and(|field| field >= table.fields[at]) {
        return Err(Question::NO_BRANCH);
    }
    let places = MOST_FIELDS * at..MOST_FIELDS * at + table.fields[at] as usize;
    let kinds = &table.kind[places.clone()];
    let mut numbers = [0; MOST_FIELDS];
    for (field, place) in places.enumerate() {
        let named = high == Some(field as u32);
        let number = if named { table.high[place] } else { table.low[place] };
        numbers[field] = number.wrapping_sub(1 << 31) as i32;
    }
    let texts: usize = kinds.iter().zip(numbers).filter(|(&kind, _)| kind == 1).map(|(_, number)| number as usize).sum();
    let length = 9 + 5 * kinds.len() + texts;
    let out = out.get_mut(..length).ok_or(Question::OUTPUT_TOO_SHORT)?;
    let (label, rest) = out.split_at_mut(8);
    label.copy_from_slice(&table.label(at).to_be_bytes());
    rest[0] = kinds.len() as u8;
    let (arrays, filling) = rest[1..].split_at_mut(5 * kinds.len());
    let (codes, bytes) = arrays.split_at_mut(kinds.len());
    codes.iter_mut().zip(kinds).for_each(|(code, &kind)| *code = kind as u8);
    bytes.chunks_exact_mut(4).zip(numbers).for_each(|(bytes, number)| bytes.copy_from_slice(&number.to_be_bytes()));
    filling.fill(0x20);
    Ok(length)
}
