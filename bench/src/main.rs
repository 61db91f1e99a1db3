//! Times the proved library against plain Rust that does the same work, both
//! in one run. Of each case the median over many samples is printed, and the
//! ratio of the two; the ratio is the result. Both sides' answers are compared.

mod cases;
mod clock;
mod elimination;
mod engine;
mod outputs;
mod plain;
mod random;
mod table;

mod report;

fn main() {
    table::heading();
    elimination::time();
    outputs::time();
    report::time();
}
