//! Group (a): the small generators document 01 works by hand, cases 1 to 17.

use super::random::Random;
use super::Checks;
use second::{basis, basis_check, question, refusal, report, value, Answer, Fields, WORK_WORDS};

pub fn check(checks: &mut Checks, _: &mut Random) {
    tausworthe_cases(checks);
    gfsr_cases(checks);
    twisted_cases(checks);
    value_case(checks);
    limits(checks);
}

/// Gν: x_n = x_(n−3) + x_(n−4), k = 4, L = 4.
pub fn g(nu: u64) -> Fields {
    let mut fields = Fields { kind: 1, k: 4, output_bits: 4, nu, ..Fields::default() };
    fields.coefficients[0] = 0x30;
    fields
}

fn gfsr() -> Fields {
    let mut fields = Fields { kind: 2, r: 2, w: 2, output_bits: 2, ..Fields::default() };
    fields.coefficients[0] = 0xc0;
    fields
}

fn twisted() -> Fields {
    Fields {
        kind: 3,
        r: 2,
        m: 1,
        w: 2,
        output_bits: 2,
        a: 3,
        shift_s: 1,
        shift_t: 1,
        ..Fields::default()
    }
}

fn twister() -> Fields {
    let sizes =
        Fields { kind: 4, r: 2, m: 1, w: 2, p: 1, output_bits: 2, a: 3, ..Fields::default() };
    Fields { shift_u: 2, shift_s: 2, shift_t: 2, shift_v: 2, ..sizes }
}

fn ask(fields: &Fields, t: u64, l: u64) -> Answer {
    question(fields, t, l, &mut vec![0; WORK_WORDS])
}

fn yes() -> Answer {
    Answer { yes: true, ..Answer::default() }
}

/// A no whose set lies in the first word.
fn no(d: u32, members: &[u32]) -> Answer {
    let mut set = [0; 8];
    set[0] = members.iter().map(|member| 1 << member).sum();
    Answer { d, set, ..Answer::default() }
}

/// The two sums and ME of a report.
fn sums(fields: &Fields) -> (u32, u32, bool) {
    let report = report(fields, &mut vec![0; WORK_WORDS]);
    (report.sum_lambda, report.sum_delta, report.me)
}

fn tausworthe_cases(checks: &mut Checks) {
    checks.same(ask(&g(1), 2, 1), yes(), || "case 1".into());
    checks.same(ask(&g(1), 2, 2), no(2, &[1, 2]), || "case 2".into());
    checks.same(sums(&g(1)), (1, 1, false), || "sums of G1".into());
    checks.same(ask(&g(2), 2, 2), yes(), || "case 3".into());
    checks.same(ask(&g(2), 4, 1), yes(), || "case 4".into());
    checks.same(sums(&g(2)), (0, 0, true), || "case 4, ME".into());
    checks.same(ask(&g(4), 2, 2), no(2, &[0, 1, 2]), || "case 5".into());
    let mut work = vec![9; WORK_WORDS];
    checks.same(basis(&g(4), 2, 2, &mut work), (0, 24), || "case 6, rank".into());
    let mut wanted = vec![0; WORK_WORDS];
    (wanted[0], wanted[8], wanted[16]) = (1, 2, 4);
    checks.same(work, wanted, || "case 6, rows".into());
    checks.same(ask(&g(15), 2, 1), no(1, &[0, 1]), || "case 7".into());
    checks.same(ask(&g(1), 4, 4), no(4, &[1, 4]), || "case 13".into());
    // Not in the table, whose cases all stand numbering resolution first;
    // here that would give d = 3.
    checks.same(ask(&g(1), 3, 2), no(2, &[1, 2]), || "G1 (3,2)".into());
}

fn gfsr_cases(checks: &mut Checks) {
    checks.same(ask(&gfsr(), 2, 2), yes(), || "case 8".into());
    checks.same(ask(&gfsr(), 3, 1), no(2, &[0, 1, 2]), || "case 9".into());
    checks.same(sums(&gfsr()), (2, 2, false), || "case 9, sums".into());
}

fn twisted_cases(checks: &mut Checks) {
    checks.same(ask(&twisted(), 4, 1), yes(), || "case 10".into());
    checks.same(sums(&twisted()), (0, 0, true), || "case 10, ME".into());
    checks.same(ask(&twister(), 3, 1), yes(), || "case 11".into());
    checks.same(sums(&twister()), (0, 0, true), || "case 11, ME".into());
}

fn value_case(checks: &mut Checks) {
    checks.same(value(1, 1), (0, 0.5f64.to_bits()), || "case 12".into());
}

fn limits(checks: &mut Checks) {
    checks.same(refusal(&Fields { k: 480, ..g(1) }), 0, || "case 14, k = 480".into());
    checks.same(refusal(&Fields { k: 481, ..g(1) }), 3, || "case 14, k = 481".into());
    let fits = Fields { r: 15, w: 32, ..twister() };
    checks.same(refusal(&fits), 0, || "case 15, r=15, w=32".into());
    let too_large = Fields { r: 16, w: 31, p: 16, ..twister() };
    checks.same(refusal(&too_large), 3, || "case 15, r=16, w=31, p=16".into());
    for (words, wanted) in [(7_696, 0), (7_695, 11)] {
        let mut work = vec![0; words];
        let got = question(&g(1), 2, 1, &mut work).refusal;
        checks.same(got, wanted, || format!("case 16, question, {words} words"));
        let got = basis(&g(1), 2, 1, &mut work).0;
        checks.same(got, wanted, || format!("case 16, basis, {words} words"));
        checks.same(basis_check(&g(1), 2, 1, words), wanted, || {
            format!("case 16, check, {words} words")
        });
        checks.same(report(&g(1), &mut work).refusal, wanted, || {
            format!("case 16, report, {words} words")
        });
    }
    checks.same(ask(&g(1), 0, 0).refusal, 7, || "case 17, question".into());
    checks.same(basis_check(&g(1), 0, 0, WORK_WORDS), 7, || "case 17, basis".into());
}
