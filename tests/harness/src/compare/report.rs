//! The report.

use super::memory;
use crate::convert::widened;
use crate::lent::Lent;
use crate::tally::Tally;
use crate::trial::Trial;
use dayunglipo::Report;

pub fn report(tally: &mut Tally, trial: &Trial) {
    let mut ours = Lent::<u64>::new(trial.work_room, trial.guarded);
    let mut theirs = ours.clone();
    let got = dayunglipo::report(&trial.fields, ours.part());
    let wanted = second::report(&widened(&trial.fields), theirs.part());
    tally.count("report", wanted.refusal);
    tally.same("report", &got, &narrowed(&wanted), || trial.line());
    memory(tally, "report", &ours, &theirs, || trial.line());
}

/// The second program's report without its k and L.
fn narrowed(report: &second::Report) -> Report {
    Report {
        refusal: report.refusal,
        resolutions: report.resolutions,
        dimensions: report.dimensions,
        resolution_sum: report.sum_lambda,
        dimension_sum: report.sum_delta,
        me: report.me,
    }
}
