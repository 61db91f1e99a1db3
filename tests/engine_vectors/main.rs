//! What the engine must answer on its worked matrices, found another way: rows as vectors of bools, the dependent set by solving for the
//! last row in the rows before it, the reduced form by swaps. Its output is stored as crates/matrices/stdout.
//! `tests/engine_vectors/run` compiles it and compares what it writes with crates/matrices/stdout.

const WORDS: usize = 10101;
const BAD: u64 = u64::MAX;

/// Wang's hash of 64 bits.
fn hash(x: u64) -> u64 {
    let mut h = (!x).wrapping_add(x << 21);
    h ^= h >> 24;
    h = h.wrapping_mul(265);
    h ^= h >> 14;
    h = h.wrapping_mul(21);
    h ^= h >> 28;
    h.wrapping_mul(1 + (1 << 31))
}

enum Kind {
    Zero,
    Mixed,
    FirstZero,
    LastSum,
}

struct Case {
    rows: usize,
    stride: usize,
    lead: usize,
    sets: usize,
    kind: Kind,
}

/// All words of the buffer before the engine runs.
fn buffer(case: &Case) -> Vec<u64> {
    let stride = case.stride;
    let mut words: Vec<u64> = match case.kind {
        Kind::Zero => vec![0; WORDS],
        _ => (0..WORDS).map(|i| if i % stride < case.lead { hash(hash(i as u64)) } else { 0 }).collect(),
    };
    match case.kind {
        Kind::FirstZero => words[..stride].fill(0),
        Kind::LastSum => {
            let last = case.rows - 1;
            for k in 0..stride {
                words[last * stride + k] =
                    (0..last).filter(|p| hash(*p as u64) % 2 == 1).fold(0, |sum, p| sum ^ words[p * stride + k]);
            }
        }
        _ => {}
    }
    words
}

fn bits_of(words: &[u64], case: &Case) -> Vec<Vec<bool>> {
    (0..case.rows)
        .map(|p| (0..64 * case.lead).map(|i| (words[p * case.stride + i / 64] >> (i % 64)) & 1 == 1).collect())
        .collect()
}

fn add(target: &mut [bool], other: &[bool]) {
    for (t, o) in target.iter_mut().zip(other) {
        *t = *t != *o;
    }
}

/// The reduced row echelon form, rows of zeros left out.
fn echelon(mut m: Vec<Vec<bool>>, columns: usize) -> Vec<Vec<bool>> {
    let mut done = 0;
    for c in 0..columns {
        let Some(p) = (done..m.len()).find(|p| m[*p][c]) else { continue };
        m.swap(done, p);
        let pivot = m[done].clone();
        for (q, row) in m.iter_mut().enumerate() {
            if q != done && row[c] {
                add(row, &pivot);
            }
        }
        done += 1;
    }
    m.truncate(done);
    m
}

fn rank(m: &[Vec<bool>], columns: usize) -> usize {
    echelon(m.to_vec(), columns).len()
}

/// The rows before d whose sum is row d: the system with a row of bits for each column.
fn solve(m: &[Vec<bool>], d: usize, columns: usize) -> Vec<bool> {
    let system: Vec<Vec<bool>> = (0..columns).map(|c| (0..=d).map(|p| m[p][c]).collect()).collect();
    let solved = echelon(system, d);
    assert_eq!(solved.len(), d);
    let mut set: Vec<bool> = solved.iter().map(|row| row[d]).collect();
    set.push(true);
    set
}

fn show(case: &Case) {
    let words = buffer(case);
    let m = bits_of(&words, case);
    let columns = 64 * case.lead;
    let d = (0..case.rows).find(|d| rank(&m[..=*d], columns) <= *d).unwrap_or(case.rows);
    if case.sets * 64 < case.rows || case.lead + case.sets > case.stride {
        print!("d {}", BAD);
    } else {
        print!("d {}", d);
        if d < case.rows {
            print!(" set");
            let set = solve(&m, d, columns);
            for w in 0..case.sets {
                print!(" {}", (0..64).fold(0u64, |x, i| x | (u64::from(64 * w + i <= d && set[64 * w + i]) << i)));
            }
        }
    }
    print!(" again {}", d);
    let basis = echelon(m, columns);
    print!(" rank {}", basis.len());
    let mut after = words;
    after[..case.rows * case.stride].fill(0);
    for (p, row) in basis.iter().enumerate() {
        for i in (0..columns).filter(|i| row[*i]) {
            after[p * case.lead + i / 64] |= 1 << (i % 64);
        }
    }
    println!(" sum {}", after.iter().fold(0, |sum, w| hash(sum).wrapping_add(*w)));
}

fn main() {
    let case = |rows, stride, sets, lead, kind| Case { rows, stride, lead, sets, kind };
    for c in [
        case(5, 2, 1, 1, Kind::Zero),
        case(50, 3, 1, 1, Kind::Mixed),
        case(60, 2, 1, 1, Kind::LastSum),
        case(100, 3, 2, 1, Kind::Mixed),
        case(40, 16, 8, 8, Kind::FirstZero),
        case(100, 16, 8, 8, Kind::LastSum),
        case(480, 16, 8, 8, Kind::Mixed),
        case(481, 16, 8, 8, Kind::LastSum),
        case(481, 21, 8, 13, Kind::LastSum),
        case(481, 21, 9, 13, Kind::Mixed),
    ] {
        show(&c);
    }
}
