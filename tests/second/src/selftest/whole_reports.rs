//! Group (e): reports against single questions, sums and ME recomputed.

use super::random::{self, Random};
use super::raw::show;
use super::Checks;
use second::{question, report, state_bits, Fields, Report, WORK_WORDS};

pub fn check(checks: &mut Checks, random: &mut Random) {
    for kind in 1..=4 {
        for round in 0..300 {
            let fields = random::generator(random, kind, if round < 280 { 14 } else { 60 });
            agrees_with_all_questions(checks, &fields);
        }
        let fields = random::generator(random, kind, 480);
        agrees_with_some_questions(checks, random, &fields);
    }
    agrees_with_some_questions(checks, random, &largest());
    gap_before_a_full_resolution(checks);
}

/// A kind 1 with k = 480 and every coefficient, L = 32.
fn largest() -> Fields {
    Fields { kind: 1, k: 480, output_bits: 32, nu: 7, coefficients: [255; 60], ..Fields::default() }
}

/// G1 has a gap at t = 2 and none at t = 3 and 4.
fn gap_before_a_full_resolution(checks: &mut Checks) {
    let made = made_report(&super::table::g(1));
    checks.same(&made.resolutions[..5], &[4, 1, 1, 1, 0], || "report of G1".into());
    checks.same(&made.dimensions[..5], &[4, 1, 1, 1, 0], || "report of G1".into());
}

fn made_report(fields: &Fields) -> Report {
    report(fields, &mut vec![1; WORK_WORDS])
}

fn says_yes(fields: &Fields, t: usize, l: usize) -> bool {
    question(fields, t as u64, l as u64, &mut vec![1; WORK_WORDS]).yes
}

/// All (t, l) in range: the largest yes in each line and column.
fn agrees_with_all_questions(checks: &mut Checks, fields: &Fields) {
    let made = made_report(fields);
    let (k, length) = (state_bits(fields), fields.output_bits as usize);
    let mut resolutions = [0; 480];
    let mut dimensions = [0; 32];
    let mut refuted = 0;
    for t in 1..=k {
        for l in 1..=length {
            if says_yes(fields, t, l) {
                resolutions[t - 1] = resolutions[t - 1].max(l as u32);
                dimensions[l - 1] = dimensions[l - 1].max(t as u32);
            } else if t * l <= k {
                refuted += 1;
            }
        }
    }
    // A yes at (t, l) is one at all smaller pairs, so each sum counts the
    // pairs in range that got a no.
    let sums = (made.sum_lambda, made.sum_delta);
    checks.same(sums, (refuted, refuted), || format!("report sums, {}", show(fields)));
    checks.same(made.resolutions, resolutions, || format!("report resolutions, {}", show(fields)));
    checks.same(made.dimensions, dimensions, || format!("report dimensions, {}", show(fields)));
    sums_follow(checks, fields, &made);
}

/// For a large generator: at some t and some l, the answer where the report
/// puts its number is yes and the one above it is no.
fn agrees_with_some_questions(checks: &mut Checks, random: &mut Random, fields: &Fields) {
    let made = made_report(fields);
    let (k, length) = (state_bits(fields), fields.output_bits as usize);
    for _ in 0..6 {
        let t = random.between(1, k as u64) as usize;
        let l_t = made.resolutions[t - 1] as usize;
        edge_is_at(checks, fields, (t, l_t), (t, l_t + 1), length);
        let l = random.between(1, length as u64) as usize;
        let t_l = made.dimensions[l - 1] as usize;
        edge_is_at(checks, fields, (t_l, l), (t_l + 1, l), length);
    }
    sums_follow(checks, fields, &made);
}

/// Yes at the first pair, unless it has a 0; no at the second, if in range.
fn edge_is_at(
    checks: &mut Checks,
    fields: &Fields,
    (t, l): (usize, usize),
    (t_above, l_above): (usize, usize),
    length: usize,
) {
    if t * l > 0 {
        checks.that(says_yes(fields, t, l), || format!("no at ({t}, {l}), {}", show(fields)));
    }
    if t_above <= state_bits(fields) && l_above <= length {
        let yes = says_yes(fields, t_above, l_above);
        checks.that(!yes, || format!("yes at ({t_above}, {l_above}), {}", show(fields)));
    }
}

/// k, L, both sums and ME from the tables of the report.
fn sums_follow(checks: &mut Checks, fields: &Fields, made: &Report) {
    let (k, length) = (state_bits(fields) as u32, fields.output_bits as u32);
    let best_sum: u32 = (1..=k).map(|t| (k / t).min(length)).sum();
    let lambda = best_sum - made.resolutions.iter().sum::<u32>();
    let delta = (1..=length).map(|l| k / l).sum::<u32>() - made.dimensions.iter().sum::<u32>();
    let got = (made.refusal, made.k, made.l, made.sum_lambda, made.sum_delta, made.me);
    let wanted = (0, k, length, lambda, delta, lambda == 0);
    checks.same(got, wanted, || format!("report numbers, {}", show(fields)));
    let past = made.resolutions[k as usize..].iter().chain(&made.dimensions[length as usize..]);
    checks.same(past.sum::<u32>(), 0, || format!("report past k or L, {}", show(fields)));
}
