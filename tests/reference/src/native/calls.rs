use super::NONE;
use crate::{
    lit::Lit,
    refusal::Refusal,
    session::{Call, Decisions, Reply, Session},
};

/// The words of a call: its letter and two arguments.
pub const CALL_WORDS: usize = 3;
/// The words of an answer: status and reply.
pub const ANSWER_WORDS: usize = 2;
/// The most variables of a group.
pub const MAX_GROUP: usize = 2048;

/// Reads a call; the variables of a group are the lent ones from its first place on, and go to the vector. What a call does not take is 0.
pub fn read_call<'a>(words: [u32; CALL_WORDS], vars: &[u32], group: &'a mut Vec<usize>) -> Result<Call<'a>, Refusal> {
    let [letter, first, second] = words;
    let letter = u8::try_from(letter).map_err(|_| Refusal::Form)?;
    match (letter, first, second) {
        (b'b', var, 0) => Ok(Call::Bump(var as usize)),
        (b'y', 0, 0) => Ok(Call::Decay),
        (b'w', high, low) => Ok(Call::SetDecay(f64::from_bits(u64::from(high) << 32 | u64::from(low)))),
        (b'i', var, 0) => Ok(Call::Insert(var as usize)),
        (b'o', var, 0) => Ok(Call::SwitchOff(var as usize)),
        (b'g', polarity, 0) => Ok(Call::Decide(polarity)),
        (b'e', code, NONE) => Ok(Call::Enqueue(Lit::from_code(code), None)),
        (b'e', code, reason) => Ok(Call::Enqueue(Lit::from_code(code), Some(reason as usize))),
        (b'u', code, 0) => Ok(Call::LearnUnit(Lit::from_code(code))),
        (b'k', level, 0) => Ok(Call::GoBack(level)),
        (b'r', var, 0) => Ok(Call::BumpReason(var as usize)),
        (b'f', place, count) => read_group(place as usize, count as usize, vars, group),
        _ => Err(Refusal::Form),
    }
}

fn read_group<'a>(place: usize, count: usize, vars: &[u32], group: &'a mut Vec<usize>) -> Result<Call<'a>, Refusal> {
    let lent = vars.get(place..place + count).filter(|lent| lent.len() <= MAX_GROUP).ok_or(Refusal::Form)?;
    group.clear();
    group.extend(lent.iter().map(|&var| var as usize));
    Ok(Call::Group(group))
}

/// Does the calls one by one, each answer by its place.
pub fn answer_all<D: Decisions>(session: &mut Session<D>, vars: &[u32], words: &[u32], answers: &mut [u32]) {
    let mut group = Vec::new();
    for (call, answer) in words.chunks_exact(CALL_WORDS).zip(answers.chunks_exact_mut(ANSWER_WORDS)) {
        let outcome = read_call([call[0], call[1], call[2]], vars, &mut group).and_then(|call| session.call(call));
        answer.copy_from_slice(&answer_words(outcome));
    }
}

fn answer_words(outcome: Result<Reply, Refusal>) -> [u32; ANSWER_WORDS] {
    match outcome {
        Ok(reply) => [0, reply.map_or(NONE, |number| number as u32)],
        Err(refusal) => [refusal as u32, NONE],
    }
}
