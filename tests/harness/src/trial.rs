//! One set of arguments for all calls.

use crate::compare;
use crate::convert::{bytes_of, described, state_bits};
use crate::tally::Tally;
use dayunglipo::{Fields, Words, WORK_WORDS};

/// The arguments; every call takes those that it has.
#[derive(Clone, Debug)]
pub struct Trial {
    pub fields: Fields,
    pub t: usize,
    pub l: usize,
    pub state: Words,
    /// The room of the lent buffers, in elements.
    pub byte_room: usize,
    pub output_room: usize,
    pub work_room: usize,
    /// Whether lent buffers stand between guards.
    pub guarded: bool,
}

impl Trial {
    /// Arguments without a fault, if the fields have none.
    pub fn new(fields: Fields, t: usize, l: usize) -> Trial {
        let state = Words::default();
        let byte_room = bytes_of(&fields).len();
        Trial {
            fields,
            t,
            l,
            state,
            byte_room,
            output_room: t,
            work_room: WORK_WORDS,
            guarded: true,
        }
    }

    /// The same with a start state.
    pub fn starting(self, state: Words) -> Trial {
        Trial { state, ..self }
    }

    /// k of the fields.
    pub fn k(&self) -> usize {
        state_bits(&self.fields)
    }

    /// The arguments as a line.
    pub fn line(&self) -> String {
        let Trial { t, l, byte_room, output_room, work_room, guarded, .. } = self;
        format!(
            "t {t} l {l} state {:x?} rooms {byte_room} {output_room} {work_room} guarded {guarded} {}",
            self.state.words,
            described(&self.fields)
        )
    }

    /// The calls that are cheap in both programs.
    pub fn cheap_calls(&self, tally: &mut Tally) {
        compare::reading(tally, &bytes_of(&self.fields));
        compare::writing(tally, self);
        compare::outputs(tally, self);
        compare::basis_check(tally, self);
    }

    /// Questions and bases.
    pub fn cell_calls(&self, tally: &mut Tally) {
        compare::question(tally, self);
        compare::basis(tally, self);
    }

    /// The report and its text.
    pub fn report_calls(&self, tally: &mut Tally) {
        compare::report(tally, self);
        compare::listing(tally, &bytes_of(&self.fields), dayunglipo::TEXT_BYTES + 8);
    }

    /// Every call.
    pub fn all_calls(&self, tally: &mut Tally) {
        self.cheap_calls(tally);
        self.cell_calls(tally);
        self.report_calls(tally);
    }
}
