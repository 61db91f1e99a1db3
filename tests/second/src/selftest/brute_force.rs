//! Group (d): small generators, where all 2^k start states can be run and
//! counted, and all sets of bits tried.

use super::random::{self, Random};
use super::raw::show;
use super::Checks;
use second::{basis, outputs, question, state_bits, Answer, Fields, WORK_WORDS};

/// How many generators of each kind.
const OF_EACH_KIND: usize = 4_000;
/// The most bits t·l for which cells are counted.
const MOST_CELL_BITS: usize = 14;

pub fn check(checks: &mut Checks, random: &mut Random) {
    let mut seen = Seen::default();
    for kind in 1..=4 {
        let (mut yes, mut no) = (0, 0);
        for _ in 0..OF_EACH_KIND {
            let fields = random::generator(random, kind, 10);
            seen.count(&fields);
            for answer in count_generator(checks, &fields) {
                *(if answer.yes { &mut yes } else { &mut no }) += 1;
            }
        }
        let enough = yes > 2 * OF_EACH_KIND && no > 2 * OF_EACH_KIND;
        checks.that(enough, || format!("kind {kind}: only {yes} yes and {no} no"));
        println!("  kind {kind}: {OF_EACH_KIND} generators, {yes} yes, {no} no");
    }
    seen.enough(checks);
}

/// How many generators of the sorts that errors hide in.
#[derive(Default)]
struct Seen {
    singular: usize,
    all_coefficients_zero: usize,
    dead_bits: usize,
    output_longer_than_state: usize,
    steps_past_state: usize,
}

impl Seen {
    fn count(&mut self, f: &Fields) {
        let last = if f.kind == 1 { f.k } else { f.r } as usize;
        let singular = match f.kind {
            1 | 2 => !f.coefficient(last),
            _ => f.a >> (f.w - 1) == 0,
        };
        self.singular += usize::from(singular);
        self.all_coefficients_zero += usize::from(f.kind <= 2 && f.coefficients == [0; 60]);
        self.dead_bits += usize::from(f.p > 0);
        self.output_longer_than_state += usize::from(f.kind == 1 && f.output_bits > f.k);
        self.steps_past_state += usize::from(f.kind == 1 && f.nu > f.k);
    }

    fn enough(&self, checks: &mut Checks) {
        let counts = [
            ("singular", self.singular),
            ("coefficients all zero", self.all_coefficients_zero),
            ("p > 0", self.dead_bits),
            ("L > k", self.output_longer_than_state),
            ("nu > k", self.steps_past_state),
        ];
        for (what, count) in counts {
            checks.that(count >= 100, || format!("only {count} generators with {what}"));
            println!("  {count} generators with {what}");
        }
    }
}

/// Counts all cells of one generator; gives the answers it checked.
fn count_generator(checks: &mut Checks, fields: &Fields) -> Vec<Answer> {
    let (k, length) = (state_bits(fields), fields.output_bits as usize);
    let all_outputs = run_all_states(checks, fields, k);
    let mut answers = Vec::new();
    for t in 1..=k {
        for l in (1..=length).filter(|l| t * l <= MOST_CELL_BITS) {
            let patterns: Vec<usize> =
                all_outputs.iter().map(|made| pattern(&made[..t], length, l)).collect();
            let case = || format!("question {t} {l}, {}", show(fields));
            let answer = question(fields, t as u64, l as u64, &mut vec![3; WORK_WORDS]);
            check_answer(checks, &answer, &patterns, (t * l, k), &case);
            if t * l <= k {
                check_basis(checks, fields, &patterns, (t, l));
            }
            answers.push(answer);
        }
    }
    answers
}

/// The first k outputs from each of the 2^k start states, by number.
fn run_all_states(checks: &mut Checks, fields: &Fields, k: usize) -> Vec<Vec<u32>> {
    let run = |state: u64| {
        let mut out = vec![0; k];
        let number = outputs(fields, k as u64, &[state, 0, 0, 0, 0, 0, 0, 0], &mut out);
        checks.same(number, 0, || format!("outputs {k} {state} 0 0 0 0 0 0 0, {}", show(fields)));
        out
    };
    (0..1 << k).map(run).collect()
}

/// The leading l bits of each output, bit n·l + j worth 2^(n·l + j).
fn pattern(outputs: &[u32], length: usize, l: usize) -> usize {
    let mut pattern = 0;
    for (n, output) in outputs.iter().enumerate() {
        for j in 0..l {
            let bit = (output >> (length - 1 - j)) as usize & 1;
            pattern |= bit << (n * l + j);
        }
    }
    pattern
}

/// Whether every cell holds equally many patterns.
fn all_counts_equal(patterns: &[usize], cell_bits: usize) -> bool {
    let mut counts = vec![0u32; 1 << cell_bits];
    for &pattern in patterns {
        counts[pattern] += 1;
    }
    counts.iter().all(|&count| count == counts[0])
}

/// Whether the bits in the set add up to zero from every start state.
fn always_zero(patterns: &[usize], set: usize) -> bool {
    patterns.iter().all(|pattern| (pattern & set).count_ones() & 1 == 0)
}

fn check_answer(
    checks: &mut Checks,
    answer: &Answer,
    patterns: &[usize],
    (cell_bits, k): (usize, usize),
    case: &dyn Fn() -> String,
) {
    checks.same(answer.refusal, 0, case);
    checks.same(answer.yes, all_counts_equal(patterns, cell_bits), || format!("yes, {}", case()));
    if answer.yes {
        let plain = Answer { yes: true, ..Answer::default() };
        checks.same(answer, &plain, case);
        return;
    }
    let (d, set) = (answer.d as usize, answer.set[0] as usize);
    checks.that(d <= k && d < cell_bits, || format!("d = {d} too large, {}", case()));
    checks.same(&answer.set[1..], &[0; 7], || format!("set past word 0, {}", case()));
    checks.same(set >> d, 1, || format!("set {set:x} does not end at d = {d}, {}", case()));
    checks
        .that(always_zero(patterns, set), || format!("set {set:x} is not always zero, {}", case()));
    let earlier = (1..1usize << d).find(|&earlier| always_zero(patterns, earlier));
    checks.same(earlier, None, || format!("a set that ends before d = {d}, {}", case()));
}

/// The basis is led by rising bits, no row has another's leading bit, and its
/// rows have the sums that the output bits have.
fn check_basis(checks: &mut Checks, fields: &Fields, patterns: &[usize], (t, l): (usize, usize)) {
    let case = || format!("basis {t} {l}, {}", show(fields));
    let k = state_bits(fields);
    let mut work = vec![5; WORK_WORDS];
    let (number, length) = basis(fields, t as u64, l as u64, &mut work);
    checks.same((number, length % 8), (0, 0), case);
    checks.that(length > 0, || format!("rank 0, {}", case()));
    let (rows, behind) = work.split_at(length);
    let first_words: Vec<usize> = rows.iter().step_by(8).map(|&word| word as usize).collect();
    let zeros =
        rows.chunks(8).all(|row| row[1..] == [0; 7]) && behind.iter().all(|&word| word == 0);
    checks.that(zeros, || format!("zeros, {}", case()));
    checks.that(is_reduced(&first_words), || format!("rows {first_words:x?}, {}", case()));
    let unit_patterns: Vec<usize> = (0..k).map(|unit| patterns[1 << unit]).collect();
    let row_of = |bit: usize| (0..k).map(|s| (unit_patterns[s] >> bit & 1) << s).sum();
    let rows: Vec<usize> = (0..t * l).map(row_of).collect();
    checks.that(sums(&first_words, k) == sums(&rows, k), || format!("sums of rows, {}", case()));
}

/// Whether the leading (lowest) bits rise and each stands in its row only.
fn is_reduced(rows: &[usize]) -> bool {
    let lead = |row: usize| row & row.wrapping_neg();
    let rising = rows.windows(2).all(|pair| lead(pair[0]) < lead(pair[1]));
    let alone = |&row: &usize| rows.iter().filter(|&other| other & lead(row) != 0).count() == 1;
    rising && rows.iter().all(alone)
}

/// Which of the 2^k rows are sums of these.
fn sums(rows: &[usize], k: usize) -> Vec<bool> {
    let mut reached = vec![false; 1 << k];
    for chosen in 0..1usize << rows.len() {
        let parts = rows.iter().enumerate().filter(|(i, _)| chosen >> i & 1 == 1);
        reached[parts.fold(0, |sum, (_, row)| sum ^ row)] = true;
    }
    reached
}
