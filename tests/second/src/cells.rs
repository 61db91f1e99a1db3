//! Questions and bases: what the 2^k start states put into the cells of
//! (t, l) is read off the outputs of the k unit states, which were run
//! forward one after another.

use crate::bits::Bits;
use crate::description::Fields;
use crate::generator::{run, state_bits};
use crate::refusals::{of_basis, of_question, WORK_WORDS};

/// The reply to a question; with a refusal all else is zero.
#[derive(Clone, Debug, Default, PartialEq, Eq)]
pub struct Answer {
    /// The refusal number, 0 if accepted.
    pub refusal: u32,
    /// Whether all cells get equally many start states.
    pub yes: bool,
    /// The first bit that is a sum of earlier ones, if the answer is no.
    pub d: u32,
    /// The bits that add up to zero, d included.
    pub set: [u64; 8],
}

/// Every bit of the first outputs as a row over the state bits.
pub struct OutputRows {
    k: usize,
    /// Bit s of `rows[n][j]` is bit j of output n from unit state s.
    rows: Vec<Vec<Bits>>,
}

impl OutputRows {
    /// Runs all unit states of accepted fields forward for so many outputs.
    pub fn run(fields: &Fields, outputs: usize) -> OutputRows {
        let k = state_bits(fields);
        let length = fields.output_bits as usize;
        let mut rows = vec![vec![Bits::default(); length]; outputs];
        for unit in 0..k {
            let mut start = vec![false; k];
            start[unit] = true;
            for (n, output) in run(fields, &start, outputs).into_iter().enumerate() {
                for j in (0..length).filter(|j| output >> (length - 1 - j) & 1 == 1) {
                    rows[n][j].insert(unit);
                }
            }
        }
        OutputRows { k, rows }
    }

    /// The row of bit number i at resolution l, which is bit i mod l of
    /// output i div l.
    fn row(&self, i: usize, l: usize) -> Bits {
        self.rows[i / l][i % l]
    }

    /// The first bit of (t, l) that is a sum of earlier ones, with the set.
    /// No more than k+1 rows need looking at, as only k can be independent.
    pub fn first_dependence(&self, t: usize, l: usize) -> Option<(usize, Bits)> {
        let mut kept: Vec<Kept> = Vec::new();
        for i in 0..(t * l).min(self.k + 1) {
            let mut row = self.row(i, l);
            let mut sum_of = Bits::only(i);
            for earlier in &kept {
                if row.has(earlier.lead) {
                    row.add(&earlier.row);
                    sum_of.add(&earlier.sum_of);
                }
            }
            match row.lowest() {
                Some(lead) => kept.push(Kept { lead, row, sum_of }),
                None => return Some((i, sum_of)),
            }
        }
        None
    }
}

/// An independent row, zero at the leads of all kept before it, and the bits
/// of (t, l) it is the sum of.
struct Kept {
    lead: usize,
    row: Bits,
    sum_of: Bits,
}

/// How many outputs have a bit among the first k+1 bits of (t, l).
fn outputs_needed(k: usize, t: usize, l: usize) -> usize {
    t.min(k / l + 1)
}

/// Answers whether all 2^k start states spread evenly over the 2^(t·l) cells.
/// The first 7,696 words of the work buffer are zero after it.
pub fn question(fields: &Fields, t: u64, l: u64, work: &mut [u64]) -> Answer {
    let refusal = of_question(fields, t, l, work.len());
    if refusal != 0 {
        return Answer { refusal, ..Answer::default() };
    }
    work[..WORK_WORDS].fill(0);
    let (t, l) = (t as usize, l as usize);
    let needed = outputs_needed(state_bits(fields), t, l);
    match OutputRows::run(fields, needed).first_dependence(t, l) {
        None => Answer { yes: true, ..Answer::default() },
        Some((d, set)) => Answer { d: d as u32, set: set.0, ..Answer::default() },
    }
}

/// The refusal number of a basis call with a work buffer of so many words.
pub fn basis_check(fields: &Fields, t: u64, l: u64, work_len: usize) -> u32 {
    of_basis(fields, t, l, work_len)
}

/// Puts the reduced rows of (t, l) at the front of the work buffer, zeros
/// behind them; gives the refusal number and the number of words in the rows.
pub fn basis(fields: &Fields, t: u64, l: u64, work: &mut [u64]) -> (u32, usize) {
    let refusal = basis_check(fields, t, l, work.len());
    if refusal != 0 {
        return (refusal, 0);
    }
    let (t, l) = (t as usize, l as usize);
    let all = OutputRows::run(fields, t);
    let reduced = reduced_rows((0..t * l).map(|i| all.row(i, l)).collect(), all.k);
    let words: Vec<u64> = reduced.iter().flat_map(|row| row.0).collect();
    work[..WORK_WORDS].fill(0);
    work[..words.len()].copy_from_slice(&words);
    (0, words.len())
}

/// The reduced row echelon form, led by the lowest-numbered bits, without
/// the rows of zeros.
fn reduced_rows(mut rows: Vec<Bits>, k: usize) -> Vec<Bits> {
    let mut rank = 0;
    for bit in 0..k {
        let Some(found) = (rank..rows.len()).find(|&i| rows[i].has(bit)) else {
            continue;
        };
        rows.swap(rank, found);
        let leading = rows[rank];
        for (i, row) in rows.iter_mut().enumerate() {
            if i != rank && row.has(bit) {
                row.add(&leading);
            }
        }
        rank += 1;
    }
    rows.truncate(rank);
    rows
}
