//! Group (d), second part: larger generators, whose sets and rows run over
//! several words. The rows come from `outputs`, and are eliminated once more
//! in another order, from the highest state bit down, without packing.

use super::random::{self, Random};
use super::raw::show;
use super::Checks;
use second::{basis, outputs, question, state_bits, Answer, Fields, WORK_WORDS};

/// A row over the state bits, one place for each.
type Row = Vec<bool>;

pub fn check(checks: &mut Checks, random: &mut Random) {
    let (mut yes, mut no, mut basis_count) = (0, 0, 0);
    for round in 0..160 {
        let fields = large_generator(random, round % 4 + 1);
        let k = state_bits(&fields);
        let l = random.between(1, fields.output_bits) as usize;
        // Most t have t·l about k, where a yes is hard to get.
        let most = if random.once_in(4) { k } else { (k / l + 1).min(k) };
        let t = random.between(most as u64 / 2 + 1, most as u64) as usize;
        let rows = rows_of(checks, &fields, t.min(k / l + 1), l);
        let answer = question(&fields, t as u64, l as u64, &mut vec![7; WORK_WORDS]);
        *(if answer.yes { &mut yes } else { &mut no }) += 1;
        let asked = &rows[..(t * l).min(k + 1)];
        check_answer(checks, &answer, asked, &|| format!("question {t} {l}, {}", show(&fields)));
        if t * l <= k {
            basis_count += 1;
            check_basis(checks, &fields, asked, (t, l));
        }
    }
    println!("  {yes} yes, {no} no, {basis_count} bases");
    checks.that(yes.min(no).min(basis_count) >= 10, || "too few of a sort".to_string());
}

/// A generator with more state bits than a word has.
fn large_generator(random: &mut Random, kind: u64) -> Fields {
    loop {
        let most = random.between(80, 480);
        let fields = random::generator(random, kind, most);
        if state_bits(&fields) > 64 {
            return fields;
        }
    }
}

/// The rows of the first l bits of so many outputs, from all unit states.
fn rows_of(checks: &mut Checks, fields: &Fields, count: usize, l: usize) -> Vec<Row> {
    let k = state_bits(fields);
    let mut rows = vec![vec![false; k]; count * l];
    for unit in 0..k {
        let mut state = [0; 8];
        state[unit / 64] = 1 << (unit % 64);
        let mut made = vec![0; count];
        let number = outputs(fields, count as u64, &state, &mut made);
        checks.same(number, 0, || format!("outputs {count} {state:x?}, {}", show(fields)));
        for (i, row) in rows.iter_mut().enumerate() {
            row[unit] = made[i / l] >> (fields.output_bits as usize - 1 - i % l) & 1 == 1;
        }
    }
    rows
}

fn add(row: &mut Row, other: &Row) {
    for (mine, theirs) in row.iter_mut().zip(other) {
        *mine ^= *theirs;
    }
}

/// For each row, whether it is independent of those before it.
fn independent(rows: &[Row]) -> Vec<bool> {
    let mut ending_at: Vec<Option<Row>> = vec![None; rows[0].len()];
    let mut takes = |row: &Row| {
        let mut row = row.clone();
        for bit in (0..row.len()).rev() {
            match &ending_at[bit] {
                _ if !row[bit] => (),
                Some(earlier) => add(&mut row, earlier),
                None => {
                    ending_at[bit] = Some(row);
                    return true;
                }
            }
        }
        false
    };
    rows.iter().map(&mut takes).collect()
}

fn has(words: &[u64], number: usize) -> bool {
    words[number / 64] >> (number % 64) & 1 == 1
}

fn check_answer(checks: &mut Checks, answer: &Answer, rows: &[Row], case: &dyn Fn() -> String) {
    let Some(d) = independent(rows).iter().position(|grows| !grows) else {
        checks.same(answer, &Answer { yes: true, ..Answer::default() }, case);
        return;
    };
    checks.same((answer.refusal, answer.yes, answer.d as usize), (0, false, d), case);
    let members: Vec<usize> = (0..512).filter(|&number| has(&answer.set, number)).collect();
    checks.same(members.last(), Some(&d), || format!("set does not end at d, {}", case()));
    let mut sum = vec![false; rows[0].len()];
    for &member in &members {
        add(&mut sum, &rows[member]);
    }
    checks.that(!sum.contains(&true), || format!("set is not zero, {}", case()));
}

/// As many rows as the rank, in reduced form, and all output bits their sums.
fn check_basis(checks: &mut Checks, fields: &Fields, rows: &[Row], (t, l): (usize, usize)) {
    let case = || format!("basis {t} {l}, {}", show(fields));
    let k = state_bits(fields);
    let rank = independent(rows).iter().filter(|grows| **grows).count();
    let mut work = vec![7; WORK_WORDS];
    checks.same(basis(fields, t as u64, l as u64, &mut work), (0, 8 * rank), case);
    let reduced: Vec<&[u64]> = work[..8 * rank].chunks(8).collect();
    let leads: Vec<usize> =
        reduced.iter().filter_map(|row| (0..512).find(|&bit| has(row, bit))).collect();
    let rising = leads.windows(2).all(|pair| pair[0] < pair[1]);
    checks.that(rising && leads.len() == rank, || format!("leads {leads:?}, {}", case()));
    let alone = |&lead: &usize| reduced.iter().filter(|row| has(row, lead)).count() == 1;
    checks.that(leads.iter().all(alone), || format!("not reduced, {}", case()));
    let past = |row: &&[u64]| (k..512).any(|bit| has(row, bit));
    checks.that(!reduced.iter().any(past), || format!("bits past k, {}", case()));
    for row in rows {
        let mut rest = row.clone();
        for (reduced_row, _) in reduced.iter().zip(&leads).filter(|(_, lead)| row[**lead]) {
            let unpacked: Row = (0..k).map(|bit| has(reduced_row, bit)).collect();
            add(&mut rest, &unpacked);
        }
        checks.that(!rest.contains(&true), || format!("a row is no sum of the basis, {}", case()));
    }
}
