use super::{check, reader::Reader, room, writer::Writer, Saved};
use crate::{heap::Heap, refusal::Refusal, sheet::Mode, trail::Trail, vsids::VSIDS, INVALID};

const MAX_ACTIVITY: f64 = 1e101;
const MAX_STEP: f64 = 1e200;

/// The lines of heap mode as they stand.
pub struct HeapLines {
    members: Vec<usize>,
    activity: Vec<f64>,
    decision: Vec<bool>,
    step: f64,
    decay: f64,
}

impl Saved for VSIDS {
    const MODE: Mode = Mode::Vsids;
    type Lines = HeapLines;

    fn write(&self, writer: &mut Writer) {
        writer.line(b'h', &self.order_heap.heap, |writer, &var| writer.number(var as u32));
        writer.line(b'a', &self.order_heap.activity, |writer, &activity| writer.bits(activity));
        writer.line(b'o', &self.decision, |writer, &on| writer.switch(on));
        writer.line(b'w', [self.var_inc, self.var_decay], Writer::bits);
    }

    fn read(reader: &mut Reader, n: u32) -> Result<HeapLines, Refusal> {
        let members = reader.all(b'h', room(n), |reader| Ok(reader.number()? as usize))?;
        let activity = reader.all(b'a', room(n), Reader::bits)?;
        let decision = reader.all(b'o', room(n), Reader::switch)?;
        let (step, decay) = reader.one(b'w', |reader| Ok((reader.bits()?, reader.field(Reader::bits)?)))?;
        check(activity.len() == n as usize && decision.len() == n as usize, Refusal::Saved)?;
        Ok(HeapLines { members, activity, decision, step, decay })
    }

    fn of(lines: HeapLines, trail: &Trail) -> Result<VSIDS, Refusal> {
        let HeapLines { members, activity, decision, step, decay } = lines;
        check(activity.iter().all(|&activity| is_upright(activity, MAX_ACTIVITY)), Refusal::State)?;
        check(is_upright(step, MAX_STEP) && (0.5..=1.0).contains(&decay), Refusal::State)?;
        let indices = positions(&members, &activity)?;
        let is_reached = |var: usize| !decision[var] || trail.assignments.is_assigned(var) || indices[var] != INVALID;
        check((0..decision.len()).all(is_reached), Refusal::State)?;
        Ok(VSIDS { order_heap: Heap { activity, heap: members, indices }, var_inc: step, var_decay: decay, decision })
    }
}

/// The position of each variable among the members, which are variables, none of them twice, each no higher than its parent.
fn positions(members: &[usize], activity: &[f64]) -> Result<Vec<usize>, Refusal> {
    let mut indices = vec![INVALID; activity.len()];
    for (place, &var) in members.iter().enumerate() {
        check(indices.get(var) == Some(&INVALID), Refusal::State)?;
        indices[var] = place;
        check(place == 0 || activity[var] <= activity[members[(place - 1) / 2]], Refusal::State)?;
    }
    Ok(indices)
}

/// Whether a double is without sign bit, not NaN and at most a limit.
fn is_upright(double: f64, limit: f64) -> bool {
    double.is_sign_positive() && double <= limit
}
