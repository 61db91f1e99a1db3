//! Group (c), first part: every fault in every call where it applies, alone,
//! in pairs and in larger numbers; the lowest number is given, the rest of
//! the reply is zero and lent memory is unchanged.

use super::faults::{all_faults, faultless, put_faults, Arguments, Fault};
use super::random::Random;
use super::raw::{hex, raw_bytes, show};
use super::Checks;
use second::{basis, basis_check, outputs, question, read, refusal, report, write, Answer, Report};

/// A call: the numbers it can give, and how it is made. Making it gives its
/// number, and whether all else in the reply is zero and memory unchanged.
struct Call {
    name: &'static str,
    numbers: &'static [u32],
    make: fn(&Arguments) -> (u32, bool),
}

const CALLS: [Call; 7] = [
    Call { name: "refusal", numbers: &[1, 3, 4, 5, 6], make: |x| (refusal(&x.fields), true) },
    Call { name: "write", numbers: &[1, 3, 4, 5, 6, 11], make: call_write },
    Call { name: "outputs", numbers: &[1, 3, 4, 5, 6, 7, 9, 11], make: call_outputs },
    Call { name: "question", numbers: &[1, 3, 4, 5, 6, 7, 8, 11], make: call_question },
    Call { name: "basis", numbers: &[1, 3, 4, 5, 6, 7, 8, 10, 11], make: call_basis },
    Call {
        name: "basis_check",
        numbers: &[1, 3, 4, 5, 6, 7, 8, 10, 11],
        make: |x| (basis_check(&x.fields, x.t, x.l, x.work), true),
    },
    Call { name: "report", numbers: &[1, 3, 4, 5, 6, 11], make: call_report },
];

pub fn check(checks: &mut Checks, random: &mut Random) {
    for kind in 1..=4 {
        for call in &CALLS {
            let faults = applicable(call, kind);
            every_number_is_there(checks, call, &faults);
            faults_in_call(checks, random, call, kind, &faults);
        }
        faults_in_bytes(checks, kind);
    }
}

fn applicable(call: &Call, kind: u64) -> Vec<Fault> {
    all_faults(kind).into_iter().filter(|fault| call.numbers.contains(&fault.number)).collect()
}

/// Kind 2 has no fault 5; any other number a call can give has a fault.
fn every_number_is_there(checks: &mut Checks, call: &Call, faults: &[Fault]) {
    for number in call.numbers.iter().filter(|number| **number != 5) {
        let there = faults.iter().any(|fault| fault.number == *number);
        checks.that(there, || format!("no fault {number} for {}", call.name));
    }
}

fn faults_in_call(
    checks: &mut Checks,
    random: &mut Random,
    call: &Call,
    kind: u64,
    faults: &[Fault],
) {
    refused_with(checks, call, kind, &[]);
    for (place, one) in faults.iter().enumerate() {
        refused_with(checks, call, kind, &[*one]);
        for other in &faults[place + 1..] {
            refused_with(checks, call, kind, &[*one, *other]);
        }
    }
    for _ in 0..200 {
        let count = random.between(3, 6);
        let chosen: Vec<Fault> = (0..count)
            .map(|_| faults[random.between(0, faults.len() as u64 - 1) as usize])
            .collect();
        refused_with(checks, call, kind, &chosen);
    }
}

/// The call with these faults gives the lowest of their numbers, or 0.
fn refused_with(checks: &mut Checks, call: &Call, kind: u64, faults: &[Fault]) {
    let mut arguments = faultless(kind);
    put_faults(&mut arguments, faults);
    let wanted = faults.iter().map(|fault| fault.number).min().unwrap_or(0);
    let (number, quiet) = (call.make)(&arguments);
    let case = || {
        let names: Vec<&str> = faults.iter().map(|fault| fault.name).collect();
        format!("{}, {}, faults {}", call.name, show(&arguments.fields), names.join("; "))
    };
    checks.same(number, wanted, case);
    checks.that(number == 0 || quiet, || format!("a refusal that does more, {}", case()));
}

/// A lent buffer whose words all differ and none is zero.
fn lent<T: From<u8>>(length: usize) -> Vec<T> {
    (0..length).map(|place| T::from((place % 251) as u8 + 1)).collect()
}

fn call_write(x: &Arguments) -> (u32, bool) {
    let mut buffer = lent::<u8>(x.bytes);
    let number = write(&x.fields, &mut buffer);
    (number, buffer == lent::<u8>(x.bytes))
}

fn call_outputs(x: &Arguments) -> (u32, bool) {
    let mut buffer = lent::<u32>(x.outs);
    let number = outputs(&x.fields, x.t, &x.state, &mut buffer);
    (number, buffer == lent::<u32>(x.outs))
}

fn call_question(x: &Arguments) -> (u32, bool) {
    let mut work = lent::<u64>(x.work);
    let answer = question(&x.fields, x.t, x.l, &mut work);
    let empty = Answer { refusal: answer.refusal, ..Answer::default() };
    (answer.refusal, answer == empty && work == lent::<u64>(x.work))
}

fn call_basis(x: &Arguments) -> (u32, bool) {
    let mut work = lent::<u64>(x.work);
    let (number, length) = basis(&x.fields, x.t, x.l, &mut work);
    (number, length == 0 && work == lent::<u64>(x.work))
}

fn call_report(x: &Arguments) -> (u32, bool) {
    let mut work = lent::<u64>(x.work);
    let made = report(&x.fields, &mut work);
    let empty = Report { refusal: made.refusal, ..Report::default() };
    (made.refusal, made == empty && work == lent::<u64>(x.work))
}

/// A change to the bytes of a description.
type Damage = fn(&mut Vec<u8>);

/// Faults of a description as a whole.
const BYTE_FAULTS: [(u32, Damage); 6] = [
    (2, |bytes| bytes.push(0)),
    (2, |bytes| bytes.truncate(bytes.len() - 1)),
    (2, |bytes| bytes.truncate(1)),
    (1, |bytes| bytes[0] = 0),
    (1, |bytes| bytes[0] = 5),
    (1, |bytes| bytes.clear()),
];

/// Reading: the faults that bytes can express, alone, in pairs, and together
/// with a wrong length or kind.
fn faults_in_bytes(checks: &mut Checks, kind: u64) {
    let faults: Vec<Fault> =
        all_faults(kind).into_iter().filter(|fault| (3..=6).contains(&fault.number)).collect();
    bytes_refused_with(checks, kind, &[]);
    for (place, one) in faults.iter().enumerate() {
        for other in &faults[place..] {
            bytes_refused_with(checks, kind, &[*one, *other]);
        }
    }
}

fn bytes_refused_with(checks: &mut Checks, kind: u64, faults: &[Fault]) {
    let mut arguments = faultless(kind);
    put_faults(&mut arguments, faults);
    let Some(bytes) = raw_bytes(&arguments.fields, kind) else {
        return;
    };
    let wanted = faults.iter().map(|fault| fault.number).min();
    checks.same(read(&bytes).err(), wanted, || format!("read {}", hex(&bytes)));
    for (number, damage) in BYTE_FAULTS {
        let mut damaged = bytes.clone();
        damage(&mut damaged);
        checks.same(read(&damaged), Err(number), || format!("read {}", hex(&damaged)));
        damaged.push(7);
        damaged[0] = 255;
        checks.same(read(&damaged), Err(1), || format!("read {}", hex(&damaged)));
    }
}
