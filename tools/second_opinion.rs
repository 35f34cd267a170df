//! A second opinion on the program `press`.
//!
//! Seeded random drafts (nondeterministic automata whose states carry values)
//! are handed to `press`, and the smallest deterministic table of each is also
//! found here by another road: forward subset construction, then Moore's
//! partition refinement. Both outputs have to agree byte for byte.
//!
//! Usage: `second_opinion PATH_OF_PRESS [SEED]`
//!
//! Exit status: 0 if all drafts agreed, 1 at the first disagreement, 2 if the
//! comparison could not be made at all.

use std::collections::{HashMap, HashSet};
use std::env;
use std::fmt::Write as _;
use std::hash::Hash;
use std::io::{self, ErrorKind, Write as _};
use std::process::{Command, ExitCode, ExitStatus, Stdio};

/// Drafts that are compared for each kind of value.
const DRAFTS_PER_KIND: usize = 3500;
/// Seed of a run that names none.
const DEFAULT_SEED: u64 = 20_011_972;
/// Most states of a draft.
const MAX_STATES: usize = 32;
/// Most letters of a draft.
const MAX_LETTERS: usize = 16;
/// Most states of any table that `press` builds.
const TABLE_LIMIT: usize = 128;
/// Most subsets that are explored here before a draft is passed over.
const SUBSET_CAP: usize = 20_000;
/// Most arrows of a generated draft: ten bytes each, they leave room for the
/// other lines in a text of 32,768 bytes.
const MAX_ARROWS: usize = 3_200;

fn main() -> ExitCode {
    match run() {
        Ok(()) => ExitCode::SUCCESS,
        Err(Failure::Disagreement(report)) => {
            print!("{report}");
            ExitCode::from(1)
        }
        Err(Failure::Trouble(message)) => {
            eprintln!("second_opinion: {message}");
            ExitCode::from(2)
        }
    }
}

/// Why a run ends early.
enum Failure {
    /// `press` printed something else than expected.
    Disagreement(String),
    /// No comparison was possible.
    Trouble(String),
}

/// Compares all kinds in turn, and prints a line for each and one for the run.
fn run() -> Result<(), Failure> {
    let (press, seed) = arguments().map_err(Failure::Trouble)?;
    let mut rng = Rng::new(seed);
    let mut passed_over = 0;
    for kind in [Kind::Y, Kind::R, Kind::M] {
        let tally = compare_kind(&press, kind, seed, &mut rng)?;
        passed_over += tally.passed_over;
        println!(
            "kind {}: {} drafts agreed ({} tables, {} refused by 10, {} refused by 11)",
            kind.letter(),
            tally.agreed(),
            tally.tables,
            tally.refused_backward,
            tally.refused_table
        );
    }
    println!("passed over: {passed_over}, seed: {seed}");
    Ok(())
}

/// Path of `press` and seed, from the command line.
fn arguments() -> Result<(String, u64), String> {
    let words: Vec<String> = env::args().skip(1).collect();
    match words.as_slice() {
        [press] => Ok((press.clone(), DEFAULT_SEED)),
        [press, seed] => match seed.parse() {
            Ok(number) => Ok((press.clone(), number)),
            Err(error) => Err(format!("seed {seed:?}: {error}")),
        },
        _ => Err("usage: second_opinion PATH_OF_PRESS [SEED]".to_string()),
    }
}

/// What became of the drafts of one kind.
#[derive(Default)]
struct Tally {
    tables: usize,
    refused_backward: usize,
    refused_table: usize,
    passed_over: usize,
}

impl Tally {
    fn agreed(&self) -> usize {
        self.tables + self.refused_backward + self.refused_table
    }

    fn count(&mut self, outcome: &Outcome) {
        match outcome {
            Outcome::Pressed(_) => self.tables += 1,
            Outcome::RefusedBackward => self.refused_backward += 1,
            Outcome::RefusedTable => self.refused_table += 1,
        }
    }
}

/// Generates drafts of one kind until enough of them were compared.
fn compare_kind(press: &str, kind: Kind, seed: u64, rng: &mut Rng) -> Result<Tally, Failure> {
    let mut tally = Tally::default();
    while tally.agreed() < DRAFTS_PER_KIND {
        let draft = random_draft(kind, rng);
        let text = draft_text(&draft, rng);
        let Some(outcome) = judge(&draft) else {
            tally.passed_over += 1;
            continue;
        };
        let expected = outcome.text(&draft);
        let answer = ask(press, &text)
            .map_err(|error| Failure::Trouble(format!("cannot run {press}: {error}")))?;
        if !answer.status.success() || answer.printed != expected.as_bytes() {
            let number = tally.agreed() + 1;
            let heading = format!(
                "disagreement: seed {seed}, kind {}, draft {number}",
                kind.letter()
            );
            return Err(Failure::Disagreement(report(
                &heading, &text, &expected, &answer,
            )));
        }
        tally.count(&outcome);
    }
    Ok(tally)
}

/// All that is needed to look into a disagreement.
fn report(heading: &str, text: &str, expected: &str, answer: &Answer) -> String {
    let printed = String::from_utf8_lossy(&answer.printed);
    format!(
        "{heading}\n--- draft\n{text}--- expected\n{expected}--- printed ({})\n{printed}--- end\n",
        answer.status
    )
}

/// What a run of `press` left behind.
struct Answer {
    status: ExitStatus,
    printed: Vec<u8>,
}

/// Runs `press` on one text. The text is shorter than the buffer of a pipe, so
/// that writing it whole before reading anything blocks neither side.
fn ask(press: &str, text: &str) -> io::Result<Answer> {
    let mut child = Command::new(press)
        .stdin(Stdio::piped())
        .stdout(Stdio::piped())
        .spawn()?;
    let sent = match child.stdin.take() {
        Some(mut stdin) => stdin.write_all(text.as_bytes()),
        None => Ok(()),
    };
    let output = child.wait_with_output()?;
    match sent {
        // A program that stops reading is judged by what it printed.
        Err(error) if error.kind() != ErrorKind::BrokenPipe => Err(error),
        _ => Ok(Answer {
            status: output.status,
            printed: output.stdout,
        }),
    }
}

// ---------------------------------------------------------------------------
// Drafts
// ---------------------------------------------------------------------------

/// A kind of value: a finite join semilattice of codes with least element 0.
#[derive(Clone, Copy, PartialEq)]
enum Kind {
    /// Yes or no, by maximum.
    Y,
    /// Ranks, by maximum.
    R,
    /// Sets of marks, by bitwise or.
    M,
}

impl Kind {
    fn letter(self) -> char {
        match self {
            Kind::Y => 'Y',
            Kind::R => 'R',
            Kind::M => 'M',
        }
    }

    fn join(self, a: u8, b: u8) -> u8 {
        match self {
            Kind::Y | Kind::R => a.max(b),
            Kind::M => a | b,
        }
    }

    /// Join of the entries that a set of states selects in a row of values.
    fn join_over(self, states: u32, row: &[u8]) -> u8 {
        members(states).fold(0, |value, state| self.join(value, row[state]))
    }
}

/// States of a set, given as a bit mask, from the lowest up.
fn members(mut states: u32) -> impl Iterator<Item = usize> {
    std::iter::from_fn(move || {
        if states == 0 {
            return None;
        }
        let lowest = states.trailing_zeros() as usize;
        states &= states - 1;
        Some(lowest)
    })
}

/// A nondeterministic automaton with values. Sets of states are bit masks.
struct Draft {
    kind: Kind,
    signs: Vec<u8>,
    values: Vec<u8>,
    entries: u32,
    /// `ends[letter][state]`: where the arrows with that letter lead.
    ends: Vec<Vec<u32>>,
}

impl Draft {
    /// A draft without values, entries and arrows.
    fn blank(kind: Kind, signs: Vec<u8>, states: usize) -> Draft {
        let ends = vec![vec![0; states]; signs.len()];
        Draft {
            kind,
            signs,
            values: vec![0; states],
            entries: 0,
            ends,
        }
    }

    fn states(&self) -> usize {
        self.values.len()
    }

    fn letters(&self) -> usize {
        self.signs.len()
    }

    fn add_entry(&mut self, state: usize) {
        self.entries |= 1 << state;
    }

    fn add_arrow(&mut self, from: usize, letter: usize, to: usize) {
        self.ends[letter][from] |= 1 << to;
    }

    fn add_state(&mut self, value: u8) {
        self.values.push(value);
        for row in &mut self.ends {
            row.push(0);
        }
    }

    /// One step of the subset construction.
    fn step(&self, states: u32, letter: usize) -> u32 {
        members(states).fold(0, |ends, state| ends | self.ends[letter][state])
    }

    /// Values of the word `letter w` from each state, given those of `w`.
    fn prepend(&self, letter: usize, row: &[u8]) -> Vec<u8> {
        self.ends[letter]
            .iter()
            .map(|&ends| self.kind.join_over(ends, row))
            .collect()
    }

    /// All arrows as (from, letter, to).
    fn arrows(&self) -> Vec<(usize, usize, usize)> {
        let mut arrows = Vec::new();
        for from in 0..self.states() {
            for (letter, row) in self.ends.iter().enumerate() {
                arrows.extend(members(row[from]).map(|to| (from, letter, to)));
            }
        }
        arrows
    }

    /// The same draft with state `s` renamed to `names[s]`.
    fn renamed(&self, names: &[usize]) -> Draft {
        let mut draft = Draft::blank(self.kind, self.signs.clone(), self.states());
        for (state, &name) in names.iter().enumerate() {
            draft.values[name] = self.values[state];
        }
        for state in members(self.entries) {
            draft.add_entry(names[state]);
        }
        for (from, letter, to) in self.arrows() {
            draft.add_arrow(names[from], letter, names[to]);
        }
        draft
    }
}

/// Writes a draft as text. The order of the lines varies as far as each state
/// stands before the lines that name it.
fn draft_text(draft: &Draft, rng: &mut Rng) -> String {
    let mut lines: Vec<(usize, String)> = Vec::new();
    for state in members(draft.entries) {
        lines.push((state, format!("E\t{state}\n")));
    }
    for (from, letter, to) in draft.arrows() {
        let sign = char::from(draft.signs[letter]);
        lines.push((from.max(to), format!("L\t{from}\t{sign}\t{to}\n")));
    }
    if rng.chance(1, 2) {
        rng.shuffle(&mut lines);
    }
    let interleaved = rng.chance(1, 3);
    let mut after_state = vec![String::new(); draft.states()];
    let last = draft.states().saturating_sub(1);
    for (highest, line) in lines {
        let place = if interleaved {
            rng.between(highest, last)
        } else {
            last
        };
        after_state[place].push_str(&line);
    }
    let signs = String::from_utf8_lossy(&draft.signs);
    let mut text = format!("D\t{}\t{signs}\n", draft.kind.letter());
    for (value, lines) in draft.values.iter().zip(&after_state) {
        push(&mut text, format_args!("S\t{value}\n{lines}"));
    }
    text
}

/// Appends formatted text; a string never refuses any.
fn push(text: &mut String, arguments: std::fmt::Arguments) {
    text.write_fmt(arguments).expect("a string takes all text");
}

// ---------------------------------------------------------------------------
// The expected output
// ---------------------------------------------------------------------------

/// What `press` has to say of a draft.
enum Outcome {
    Pressed(Pressed),
    /// Refusal 10: more than 128 backward states.
    RefusedBackward,
    /// Refusal 11: more than 128 states in the smallest table.
    RefusedTable,
}

/// The smallest table with the findings about its draft.
struct Pressed {
    rows: Vec<Row>,
    backward_count: usize,
    first_not_atomic: Option<usize>,
    once_count: usize,
}

/// A state of a deterministic table: its value and its next state by letter.
struct Row {
    value: u8,
    next: Vec<usize>,
}

/// Finds the outcome for a draft, or nothing if it has too many subsets.
fn judge(draft: &Draft) -> Option<Outcome> {
    let Some(vectors) = backward_vectors(draft) else {
        return Some(Outcome::RefusedBackward);
    };
    let automaton = subset_construction(draft)?;
    let Some(classes) = moore_partition(&automaton.rows) else {
        return Some(Outcome::RefusedTable);
    };
    Some(Outcome::Pressed(Pressed {
        rows: quotient(&automaton.rows, &classes),
        backward_count: vectors.len(),
        first_not_atomic: first_not_atomic(draft, &automaton.subsets, &vectors),
        once_count: automaton.subsets.len(),
    }))
}

impl Outcome {
    fn text(&self, draft: &Draft) -> String {
        match self {
            Outcome::Pressed(pressed) => pressed.text(draft),
            Outcome::RefusedBackward => "X\t10\t0\t0\t0\n".to_string(),
            Outcome::RefusedTable => "X\t11\t0\t0\t0\n".to_string(),
        }
    }
}

impl Pressed {
    fn text(&self, draft: &Draft) -> String {
        let kind = draft.kind.letter();
        let signs = String::from_utf8_lossy(&draft.signs);
        let mut text = format!("T\t{kind}\t{signs}\t{}\n", self.rows.len());
        for (number, row) in self.rows.iter().enumerate() {
            push(&mut text, format_args!("{number}\t{}", row.value));
            for next in &row.next {
                push(&mut text, format_args!("\t{next}"));
            }
            text.push('\n');
        }
        text.push_str(&self.verdict_line());
        text
    }

    fn verdict_line(&self) -> String {
        let (atomic, first) = match self.first_not_atomic {
            None => ('A', "-".to_string()),
            Some(state) => ('N', state.to_string()),
        };
        let once = match self.once_count {
            count if count > TABLE_LIMIT => "-".to_string(),
            count => count.to_string(),
        };
        format!("V\t{}\t{atomic}\t{first}\t{once}\n", self.backward_count)
    }
}

/// The different vectors of values that words have from the states, found by
/// putting letters in front of words; nothing if there are more than 128.
fn backward_vectors(draft: &Draft) -> Option<Vec<Vec<u8>>> {
    let mut seen = HashSet::from([draft.values.clone()]);
    let mut vectors = vec![draft.values.clone()];
    let mut done = 0;
    while done < vectors.len() {
        for letter in 0..draft.letters() {
            let vector = draft.prepend(letter, &vectors[done]);
            if seen.insert(vector.clone()) {
                vectors.push(vector);
            }
            if vectors.len() > TABLE_LIMIT {
                return None;
            }
        }
        done += 1;
    }
    Some(vectors)
}

/// The deterministic automaton of the reachable subsets; its start is row 0.
struct SubsetAutomaton {
    subsets: Vec<u32>,
    rows: Vec<Row>,
}

/// Subset construction, breadth first; nothing if it goes over the cap.
fn subset_construction(draft: &Draft) -> Option<SubsetAutomaton> {
    let mut numbers = HashMap::from([(draft.entries, 0)]);
    let mut subsets = vec![draft.entries];
    let mut rows = Vec::new();
    while rows.len() < subsets.len() {
        let subset = subsets[rows.len()];
        let mut next = Vec::with_capacity(draft.letters());
        for letter in 0..draft.letters() {
            let target = draft.step(subset, letter);
            let number = *numbers.entry(target).or_insert_with(|| {
                subsets.push(target);
                subsets.len() - 1
            });
            next.push(number);
        }
        if subsets.len() > SUBSET_CAP {
            return None;
        }
        rows.push(Row {
            value: draft.kind.join_over(subset, &draft.values),
            next,
        });
    }
    Some(SubsetAutomaton { subsets, rows })
}

/// Moore's partition refinement: states begin together if their values are
/// equal, and are split by the classes of their successors until no class
/// splits any more. Gives the class of each state, or nothing as soon as there
/// are more than 128 classes, for a refinement never merges any.
fn moore_partition(rows: &[Row]) -> Option<Vec<usize>> {
    let (mut classes, mut count) = number_keys(rows.iter().map(|row| row.value));
    while count <= TABLE_LIMIT {
        let keys = rows.iter().zip(&classes).map(|(row, &class)| {
            let successors: Vec<usize> = row.next.iter().map(|&next| classes[next]).collect();
            (class, successors)
        });
        let (finer, finer_count) = number_keys(keys);
        if finer_count == count {
            return Some(classes);
        }
        classes = finer;
        count = finer_count;
    }
    None
}

/// Gives equal keys one number, and says how many numbers were given.
fn number_keys<K: Hash + Eq>(keys: impl Iterator<Item = K>) -> (Vec<usize>, usize) {
    let mut numbers = HashMap::new();
    let mut numbered = Vec::new();
    for key in keys {
        let fresh = numbers.len();
        numbered.push(*numbers.entry(key).or_insert(fresh));
    }
    (numbered, numbers.len())
}

/// The quotient by a stable partition, its states numbered by first reach.
fn quotient(rows: &[Row], classes: &[usize]) -> Vec<Row> {
    let mut numbers = HashMap::from([(classes[0], 0)]);
    let mut delegates = vec![0];
    let mut table = Vec::new();
    while table.len() < delegates.len() {
        let row = &rows[delegates[table.len()]];
        let mut next = Vec::with_capacity(row.next.len());
        for &target in &row.next {
            let number = *numbers.entry(classes[target]).or_insert_with(|| {
                delegates.push(target);
                delegates.len() - 1
            });
            next.push(number);
        }
        table.push(Row {
            value: row.value,
            next,
        });
    }
    table
}

/// The lowest state from which two words differ although they have one value
/// behind every beginning. The reachable subsets stand for the beginnings, and
/// the backward vectors for the words.
fn first_not_atomic(draft: &Draft, subsets: &[u32], vectors: &[Vec<u8>]) -> Option<usize> {
    let mut groups: HashMap<Vec<u8>, &[u8]> = HashMap::new();
    let mut lowest = None;
    for vector in vectors {
        let signature: Vec<u8> = subsets
            .iter()
            .map(|&subset| draft.kind.join_over(subset, vector))
            .collect();
        let model = *groups.entry(signature).or_insert(vector);
        let differs = (0..draft.states()).find(|&state| model[state] != vector[state]);
        lowest = match (lowest, differs) {
            (Some(a), Some(b)) => Some(usize::min(a, b)),
            (a, b) => a.or(b),
        };
    }
    lowest
}

// ---------------------------------------------------------------------------
// Random drafts
// ---------------------------------------------------------------------------

/// A pseudorandom number generator: xorshift64*.
struct Rng {
    state: u64,
}

impl Rng {
    /// Scatters the seed by a round of splitmix64, so that near seeds give
    /// unlike runs; the state of a xorshift must not be 0.
    fn new(seed: u64) -> Rng {
        let mut z = seed.wrapping_add(0x9E37_79B9_7F4A_7C15);
        z = (z ^ (z >> 30)).wrapping_mul(0xBF58_476D_1CE4_E5B9);
        z = (z ^ (z >> 27)).wrapping_mul(0x94D0_49BB_1331_11EB);
        Rng {
            state: (z ^ (z >> 31)).max(1),
        }
    }

    /// The upper half of the next output, which is the better one.
    fn draw(&mut self) -> u64 {
        self.state ^= self.state >> 12;
        self.state ^= self.state << 25;
        self.state ^= self.state >> 27;
        self.state.wrapping_mul(0x2545_F491_4F6C_DD1D) >> 32
    }

    /// A number from 0 to `bound - 1`.
    fn below(&mut self, bound: usize) -> usize {
        ((self.draw() * bound as u64) >> 32) as usize
    }

    /// A number from `low` to `high`, both of them possible.
    fn between(&mut self, low: usize, high: usize) -> usize {
        low + self.below(high - low + 1)
    }

    /// True in `part` of `whole` cases.
    fn chance(&mut self, part: usize, whole: usize) -> bool {
        self.below(whole) < part
    }

    fn byte(&mut self) -> u8 {
        self.below(256) as u8
    }

    fn pick<T: Copy>(&mut self, choices: &[T]) -> T {
        choices[self.below(choices.len())]
    }

    /// Fisher and Yates' shuffle.
    fn shuffle<T>(&mut self, items: &mut [T]) {
        for end in (1..items.len()).rev() {
            items.swap(end, self.below(end + 1));
        }
    }

    fn permutation(&mut self, length: usize) -> Vec<usize> {
        let mut order: Vec<usize> = (0..length).collect();
        self.shuffle(&mut order);
        order
    }
}

/// A draft of a random family, perhaps disturbed, with its states in random
/// order.
fn random_draft(kind: Kind, rng: &mut Rng) -> Draft {
    let mut draft = match rng.below(20) {
        0..=5 => scattered(kind, rng),
        6..=7 => deterministic(kind, rng),
        8..=11 => codeterministic(kind, rng),
        12..=15 => nth_from_the_end(kind, rng),
        16..=17 => nth_from_the_front(kind, rng),
        _ => cycles(kind, rng),
    };
    if rng.chance(1, 2) {
        disturb(&mut draft, rng);
    }
    limit_arrows(&mut draft, rng);
    draft.renamed(&rng.permutation(draft.states()))
}

/// Different printable signs in random order.
fn random_signs(letters: usize, rng: &mut Rng) -> Vec<u8> {
    let mut signs: Vec<u8> = (33..=126).collect();
    rng.shuffle(&mut signs);
    signs.truncate(letters);
    signs
}

/// Mostly few letters, now and then as many as there may be.
fn letter_count(rng: &mut Rng) -> usize {
    match rng.below(20) {
        0..=15 => rng.between(1, 4),
        16..=17 => rng.between(5, MAX_LETTERS - 1),
        _ => MAX_LETTERS,
    }
}

/// Mostly few states, now and then as many as there may be.
fn state_count(rng: &mut Rng) -> usize {
    match rng.below(20) {
        0..=12 => rng.between(0, 8),
        13..=17 => rng.between(9, MAX_STATES - 1),
        _ => MAX_STATES,
    }
}

/// A value other than 0.
fn some_value(kind: Kind, rng: &mut Rng) -> u8 {
    match kind {
        Kind::Y => 1,
        Kind::M if rng.chance(1, 2) => 1 << rng.below(8),
        Kind::R | Kind::M => rng.byte().max(1),
    }
}

/// Gives the states values out of a palette of random size, and none to a
/// random share of them.
fn scatter_values(draft: &mut Draft, rng: &mut Rng) {
    let colours = rng.pick(&[1, 2, 3, 4, 8, 32]);
    let palette: Vec<u8> = (0..colours).map(|_| some_value(draft.kind, rng)).collect();
    let share = rng.pick(&[1, 2, 4, 4, 6, 8]);
    for value in &mut draft.values {
        *value = if rng.chance(share, 8) {
            rng.pick(&palette)
        } else {
            0
        };
    }
}

/// Makes each state an entry in `part` of `whole` cases, and one state surely.
fn scatter_entries(draft: &mut Draft, part: usize, whole: usize, rng: &mut Rng) {
    for state in 0..draft.states() {
        if rng.chance(part, whole) {
            draft.add_entry(state);
        }
    }
    if draft.states() > 0 {
        let state = rng.below(draft.states());
        draft.add_entry(state);
    }
}

/// Arrows anywhere, sparse or dense.
fn scattered(kind: Kind, rng: &mut Rng) -> Draft {
    let signs = random_signs(letter_count(rng), rng);
    let mut draft = Draft::blank(kind, signs, state_count(rng));
    scatter_values(&mut draft, rng);
    if rng.chance(15, 16) {
        let part = rng.pick(&[0, 0, 1, 4]);
        scatter_entries(&mut draft, part, 8, rng);
    }
    // Arrows by one letter out of one state, in quarters, on the average.
    let quarters = rng.pick(&[2, 3, 4, 4, 5, 6, 8, 2 * draft.states()]);
    for from in 0..draft.states() {
        for letter in 0..draft.letters() {
            for to in 0..draft.states() {
                if rng.chance(quarters, 4 * draft.states()) {
                    draft.add_arrow(from, letter, to);
                }
            }
        }
    }
    draft
}

/// At most one arrow by each letter out of each state, and one entry.
fn deterministic(kind: Kind, rng: &mut Rng) -> Draft {
    let signs = random_signs(letter_count(rng), rng);
    let mut draft = Draft::blank(kind, signs, state_count(rng).max(1));
    scatter_values(&mut draft, rng);
    scatter_entries(&mut draft, 0, 1, rng);
    let share = rng.pick(&[6, 8, 8]);
    let reach = rng.pick(&[3, MAX_STATES]);
    for from in 0..draft.states() {
        for letter in 0..draft.letters() {
            if rng.chance(share, 8) {
                let to = (from + rng.below(reach)) % draft.states();
                draft.add_arrow(from, letter, to);
            }
        }
    }
    draft
}

/// At most one arrow by each letter into each state, few values: read backward
/// this is deterministic, so that its backward table stays small while its
/// forward subsets may be many.
fn codeterministic(kind: Kind, rng: &mut Rng) -> Draft {
    let signs = random_signs(letter_count(rng), rng);
    let states = rng.between(4, 14);
    let mut draft = Draft::blank(kind, signs, states);
    for _ in 0..rng.pick(&[1, 1, 1, 2, 3]) {
        draft.values[rng.below(states)] = some_value(kind, rng);
    }
    let part = rng.pick(&[0, 1, 2, 4]);
    scatter_entries(&mut draft, part, 8, rng);
    let reversible = rng.chance(1, 2);
    let share = rng.pick(&[6, 7, 8, 8]);
    for letter in 0..draft.letters() {
        let order = rng.permutation(states);
        for (to, &before) in order.iter().enumerate() {
            if rng.chance(share, 8) {
                let from = if reversible {
                    before
                } else {
                    rng.below(states)
                };
                draft.add_arrow(from, letter, to);
            }
        }
    }
    draft
}

/// Letters of the two 'n-th letter' families.
struct Alphabet {
    /// Letters that are looked for.
    marked: Vec<usize>,
    /// Letters that lead on at all; the others lead nowhere.
    live: Vec<usize>,
}

impl Alphabet {
    fn random(letters: usize, rng: &mut Rng) -> Alphabet {
        let mut live: Vec<usize> = rng.permutation(letters);
        if live.len() > 2 && rng.chance(1, 3) {
            live.pop();
        }
        let marked = live[..live.len().div_ceil(2)].to_vec();
        Alphabet { marked, live }
    }
}

/// Joins states `from` to `from + length` to a chain by the given letters.
fn add_chain(draft: &mut Draft, from: usize, length: usize, letters: &[usize]) {
    for state in from..from + length {
        for &letter in letters {
            draft.add_arrow(state, letter, state + 1);
        }
    }
}

fn add_loops(draft: &mut Draft, state: usize, letters: &[usize]) {
    for &letter in letters {
        draft.add_arrow(state, letter, state);
    }
}

/// 'The n-th letter from the end is marked', behind a few letters of any sort:
/// few backward states, but two to the power of n forward ones.
fn nth_from_the_end(kind: Kind, rng: &mut Rng) -> Draft {
    let signs = random_signs(letter_count(rng).max(2), rng);
    let alphabet = Alphabet::random(signs.len(), rng);
    let n = rng.pick(&[1, 2, 3, 4, 5, 6, 7, 7, 7, 8, 8, 9, 9, 10]);
    let lead = rng.pick(&[0, 0, 0, 1, 2, 3]);
    let mut draft = Draft::blank(kind, signs, lead + n + 1);
    draft.add_entry(0);
    add_chain(&mut draft, 0, lead, &alphabet.live);
    add_loops(&mut draft, lead, &alphabet.live);
    add_chain(&mut draft, lead, 1, &alphabet.marked);
    add_chain(&mut draft, lead + 1, n - 1, &alphabet.live);
    if rng.chance(1, 4) {
        scatter_values(&mut draft, rng);
    }
    draft.values[lead + n] = some_value(kind, rng);
    draft
}

/// 'The n-th letter is marked': few forward states, but two to the power of n
/// backward ones.
fn nth_from_the_front(kind: Kind, rng: &mut Rng) -> Draft {
    let signs = random_signs(letter_count(rng).max(2), rng);
    let alphabet = Alphabet::random(signs.len(), rng);
    let n = rng.pick(&[1, 2, 3, 4, 5, 6, 6, 7, 7, 7, 8, 8, 9, 12, 24, 31]);
    let mut draft = Draft::blank(kind, signs, n + 1);
    draft.add_entry(0);
    add_chain(&mut draft, 0, n - 1, &alphabet.live);
    add_chain(&mut draft, n - 1, 1, &alphabet.marked);
    add_loops(&mut draft, n, &alphabet.live);
    draft.values[n] = some_value(kind, rng);
    draft
}

/// Cycles by one letter that are entered together through a tail: as many
/// subsets as the tail is long, and as the least common multiple of the cycles
/// says. Many of these come near to 128 from either side.
fn cycles(kind: Kind, rng: &mut Rng) -> Draft {
    let menu: [&[usize]; 8] = [
        &[2, 7, 9],
        &[9, 14],
        &[7, 18],
        &[8, 15],
        &[3, 5, 8],
        &[10, 13],
        &[11, 12],
        &[31],
    ];
    let lengths = if rng.chance(2, 3) {
        rng.pick(&menu).to_vec()
    } else {
        (0..rng.between(1, 4)).map(|_| rng.between(1, 7)).collect()
    };
    let tail = rng
        .pick(&[0, 1, 2, 3, 4])
        .min(MAX_STATES - lengths.iter().sum::<usize>());
    let letters = rng.between(1, 3);
    let mut draft = Draft::blank(kind, random_signs(letters, rng), tail);
    let mut heads = Vec::new();
    for &length in &lengths {
        heads.push(draft.states());
        add_cycle(&mut draft, length, rng);
    }
    add_chain(&mut draft, 0, tail.saturating_sub(1), &[0]);
    for &head in &heads {
        if tail > 0 {
            draft.add_arrow(tail - 1, 0, head);
        } else if rng.chance(15, 16) {
            draft.add_entry(head);
        }
    }
    if tail > 0 {
        draft.add_entry(0);
    }
    for letter in 1..letters {
        add_companion(&mut draft, letter, rng);
    }
    draft
}

/// Adds a cycle by letter 0 with one value, or sometimes values anywhere.
fn add_cycle(draft: &mut Draft, length: usize, rng: &mut Rng) {
    let first = draft.states();
    let many = rng.chance(1, 8);
    for place in 0..length {
        let valued = if many {
            rng.chance(1, 2)
        } else {
            place + 1 == length
        };
        let value = if valued {
            some_value(draft.kind, rng)
        } else {
            0
        };
        draft.add_state(value);
    }
    for place in 0..length {
        draft.add_arrow(first + place, 0, first + (place + 1) % length);
    }
}

/// Lets a further letter do as letter 0 does, or stay, or lead nowhere.
fn add_companion(draft: &mut Draft, letter: usize, rng: &mut Rng) {
    match rng.below(3) {
        0 => draft.ends[letter] = draft.ends[0].clone(),
        1 => {
            for state in 0..draft.states() {
                draft.add_arrow(state, letter, state);
            }
        }
        _ => {}
    }
}

/// Changes a few things at random.
fn disturb(draft: &mut Draft, rng: &mut Rng) {
    if draft.states() < MAX_STATES && rng.chance(1, 2) {
        let value = some_value(draft.kind, rng);
        draft.add_state(value);
        if rng.chance(1, 4) {
            draft.add_entry(draft.states() - 1);
        }
    }
    if draft.states() == 0 {
        return;
    }
    for _ in 0..rng.pick(&[0, 0, 1, 2, 3]) {
        let from = rng.below(draft.states());
        let to = rng.below(draft.states());
        draft.add_arrow(from, rng.below(draft.letters()), to);
    }
    if rng.chance(1, 4) {
        draft.entries ^= 1 << rng.below(draft.states());
    }
    if rng.chance(1, 4) {
        let state = rng.below(draft.states());
        draft.values[state] = some_value(draft.kind, rng);
    }
}

/// Drops random arrows until the text of the draft is sure to be short enough.
fn limit_arrows(draft: &mut Draft, rng: &mut Rng) {
    let mut arrows = draft.arrows();
    if arrows.len() <= MAX_ARROWS {
        return;
    }
    rng.shuffle(&mut arrows);
    for &(from, letter, to) in &arrows[MAX_ARROWS..] {
        draft.ends[letter][from] &= !(1 << to);
    }
}
