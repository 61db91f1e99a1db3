//! Description bytes by a second route, made without any judgement, so that
//! refused fields can be put into bytes too.

use second::Fields;

/// The numbers of a body in order, each with its bytes.
fn shape(f: &Fields, body: u64) -> Vec<(u64, u32)> {
    let sizes = [(f.r, 2), (f.m, 2), (f.w, 1)];
    let matrix = [(f.output_bits, 1), (f.a, 4)];
    match body {
        1 => vec![(f.k, 2), (f.output_bits, 1), (f.nu, 1)],
        2 => vec![(f.r, 2), (f.w, 1), (f.output_bits, 1)],
        3 => {
            let tempering = [(f.shift_s, 1), (f.shift_t, 1), (f.b, 4), (f.c, 4)];
            [&sizes[..], &matrix, &tempering].concat()
        }
        _ => {
            let first_half = [(f.shift_u, 1), (f.shift_s, 1), (f.b, 4)];
            let second_half = [(f.shift_t, 1), (f.c, 4), (f.shift_v, 1)];
            [&sizes[..], &[(f.p, 1)], &matrix, &first_half, &second_half].concat()
        }
    }
}

/// The description of these fields, if its numbers fit into their bytes and
/// nothing else is set. Which body it is, is told apart from the kind field.
pub fn raw_bytes(fields: &Fields, body: u64) -> Option<Vec<u8>> {
    let numbers = shape(fields, body);
    let mut bytes = vec![u8::try_from(fields.kind).ok()?];
    for (number, count) in &numbers {
        if *number >= 256u64.pow(*count) {
            return None;
        }
        bytes.extend((0..*count).rev().map(|place| (number / 256u64.pow(place) % 256) as u8));
    }
    if body <= 2 {
        bytes.extend(fields.coefficients);
    }
    let put: u128 = numbers.iter().map(|(number, _)| u128::from(*number)).sum();
    let no_others = put == sum_of_numbers(fields);
    let no_coefficients = fields.coefficients == [0; 60];
    (no_others && (body <= 2 || no_coefficients)).then_some(bytes)
}

/// The sum of all numbers but the kind; a body that leaves one out has less.
fn sum_of_numbers(f: &Fields) -> u128 {
    let first = [f.k, f.r, f.m, f.w, f.p, f.output_bits, f.nu];
    let second = [f.a, f.b, f.c, f.shift_s, f.shift_t, f.shift_u, f.shift_v];
    first.iter().chain(&second).map(|&number| u128::from(number)).sum()
}

/// Bytes in hexadecimal.
pub fn hex(bytes: &[u8]) -> String {
    bytes.iter().map(|byte| format!("{byte:02x}")).collect()
}

/// The description in hexadecimal, or the fields if no bytes express them.
pub fn show(fields: &Fields) -> String {
    match raw_bytes(fields, fields.kind) {
        Some(bytes) => format!("description {}", hex(&bytes)),
        None => format!("{fields:?}"),
    }
}
