//! A run of a plan on a starting valuation, in paper 01's words: it keeps real settings; a set changes its setting, a look
//! reads the present value and goes on with that outcome's plan.

use crate::knowledge::{Act, Kind};
use crate::plan::Plan;

/// The acts done, each look with what it read.
pub type Trace = Vec<(u8, Option<bool>)>;

pub fn run(plan: &Plan, start: usize) -> Trace {
    let mut settings = start;
    let mut trace = Trace::new();
    let mut rest = plan;
    while let Plan::Go(act, plans) = rest {
        let Act { kind, setting, .. } = *act;
        let before = settings >> setting & 1 == 1;
        rest = match kind {
            Kind::Set(value) => {
                settings = settings & !(1 << setting) | usize::from(value) << setting;
                trace.push((act.byte(), None));
                &plans[0]
            }
            Kind::Look => {
                trace.push((act.byte(), Some(before)));
                &plans[usize::from(before)]
            }
        };
    }
    trace
}
