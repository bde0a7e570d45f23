//! The call sheet: lines of bytes in, an answer line for each out.

use crate::{
    decision::Decisions,
    formula::Formula,
    lit::Lit,
    refusal::Refusal,
    session::{Call, Live, Reply, Session},
};
use std::iter::Peekable;

/// The longest sheet, in bytes.
pub const MAX_SHEET: usize = 32_768;
/// The answer buffer's bytes for each newline of the sheet.
pub const ANSWER_ROOM: usize = 24;
pub const MAX_VARIABLES: usize = 2048;
pub const MAX_GROUP: usize = 2048;

const TAB: u8 = b'\t';
const NEWLINE: u8 = b'\n';

#[derive(Clone, Copy, Debug, PartialEq, Eq)]
pub enum Mode {
    Vsids,
    Vmtf,
}

impl Mode {
    /// The word for it on the first line of a sheet or of a saved session.
    pub fn name(self) -> &'static [u8] {
        match self {
            Mode::Vsids => b"vsids",
            Mode::Vmtf => b"vmtf",
        }
    }
}

/// Runs a sheet and writes its answers to the front of the buffer. Returns the number of bytes written, or 4294967295 less 1 for a sheet
/// that is too long and less 2 for a buffer that is too short.
pub fn run(sheet: &[u8], answers: &mut [u8]) -> u32 {
    match run_to_end(sheet, answers, drop) {
        Ok(len) => len as u32,
        Err(refusal) => u32::MAX - refusal as u32,
    }
}

/// The same; hands over the session as it is at the end, unless the first line is refused or missing.
pub fn run_to_end(sheet: &[u8], answers: &mut [u8], at_end: impl FnOnce(Live)) -> Result<usize, Refusal> {
    let (mut lines, mut answers) = open(sheet, answers)?;
    if let Some(first) = lines.next() {
        let heading = parse_heading(first);
        answers.write(heading.map(|_| None));
        match heading {
            Ok((num_vars, Mode::Vsids)) => at_end(Live::Heap(run_session(num_vars, lines, &mut answers))),
            Ok((num_vars, Mode::Vmtf)) => at_end(Live::List(run_session(num_vars, lines, &mut answers))),
            Err(_) => {}
        }
    }
    Ok(answers.len)
}

/// Does the calls of a sheet that has nothing but calls. Gives the number of bytes written, or refusal 1 or 2.
pub fn run_on(live: &mut Live, sheet: &[u8], answers: &mut [u8]) -> Result<usize, Refusal> {
    let (lines, mut answers) = open(sheet, answers)?;
    match live {
        Live::Heap(session) => run_calls(session, lines, &mut answers),
        Live::List(session) => run_calls(session, lines, &mut answers),
    }
    Ok(answers.len)
}

/// The lines of a sheet that is not too long, and no answers yet, in a buffer that has room for theirs.
fn open<'a, 'b>(sheet: &'a [u8], buffer: &'b mut [u8]) -> Result<(Peekable<impl Iterator<Item = &'a [u8]>>, Answers<'b>), Refusal> {
    if sheet.len() > MAX_SHEET {
        return Err(Refusal::SheetTooLong);
    }
    let newlines = newlines(sheet);
    if buffer.len() < ANSWER_ROOM * newlines {
        return Err(Refusal::BufferTooShort);
    }
    let lines = sheet.split(|&byte| byte == NEWLINE).take(newlines).peekable();
    Ok((lines, Answers { buffer, len: 0, line: 0 }))
}

pub fn newlines(sheet: &[u8]) -> usize {
    sheet.iter().filter(|&&byte| byte == NEWLINE).count()
}

/// Reads the clauses, makes the session and does its calls.
fn run_session<'a, D: Decisions>(
    num_vars: usize,
    mut lines: Peekable<impl Iterator<Item = &'a [u8]>>,
    answers: &mut Answers,
) -> Session<D> {
    let mut formula = Formula::new(num_vars);
    while let Some(line) = lines.next_if(|line| line.first() == Some(&b'c')) {
        answers.write(parse_clause(line, &mut formula).map(|()| None));
    }
    let mut session = Session::new(formula);
    run_calls(&mut session, lines, answers);
    session
}

fn run_calls<'a, D: Decisions>(session: &mut Session<D>, lines: impl Iterator<Item = &'a [u8]>, answers: &mut Answers) {
    let mut group = Vec::new();
    for line in lines {
        answers.write(parse_call(line, &mut group).and_then(|call| session.call(call)));
    }
}

/// The fields of a line that are still unread.
struct Fields<'a, I: Iterator<Item = &'a [u8]>>(I);

fn fields(line: &[u8]) -> Fields<'_, impl Iterator<Item = &[u8]>> {
    Fields(line.split(|&byte| byte == TAB))
}

impl<'a, I: Iterator<Item = &'a [u8]>> Fields<'a, I> {
    fn next(&mut self) -> Result<&'a [u8], Refusal> {
        self.0.next().ok_or(Refusal::Form)
    }

    fn number(&mut self) -> Result<u32, Refusal> {
        self.next().and_then(number)
    }

    fn index(&mut self) -> Result<usize, Refusal> {
        self.number().map(|value| value as usize)
    }

    fn lit(&mut self) -> Result<Lit, Refusal> {
        self.number().map(Lit::from_code)
    }

    fn end(mut self) -> Result<(), Refusal> {
        match self.0.next() {
            None => Ok(()),
            Some(_) => Err(Refusal::Form),
        }
    }
}

pub fn parse_heading(line: &[u8]) -> Result<(usize, Mode), Refusal> {
    let mut fields = fields(line);
    if fields.next()? != b"n" {
        return Err(Refusal::Form);
    }
    let num_vars = fields.index()?;
    let mode = match fields.next()? {
        b"vsids" => Mode::Vsids,
        b"vmtf" => Mode::Vmtf,
        _ => return Err(Refusal::Form),
    };
    fields.end()?;
    if num_vars > MAX_VARIABLES {
        return Err(Refusal::TooManyVariables);
    }
    Ok((num_vars, mode))
}

pub fn parse_clause(line: &[u8], formula: &mut Formula) -> Result<(), Refusal> {
    let mut fields = fields(line);
    if fields.next()? != b"c" {
        return Err(Refusal::Form);
    }
    formula.add_clause(fields.0.map(|field| number(field).map(Lit::from_code)))
}

/// Reads a call; a group's variables go to the vector.
pub fn parse_call<'a>(line: &[u8], group: &'a mut Vec<usize>) -> Result<Call<'a>, Refusal> {
    let mut fields = fields(line);
    let call = match fields.next()? {
        b"b" => Call::Bump(fields.index()?),
        b"y" => Call::Decay,
        b"w" => Call::SetDecay(double(fields.next()?)?),
        b"i" => Call::Insert(fields.index()?),
        b"o" => Call::SwitchOff(fields.index()?),
        b"g" => Call::Decide(fields.number()?),
        b"e" => Call::Enqueue(fields.lit()?, reason(fields.next()?)?),
        b"u" => Call::LearnUnit(fields.lit()?),
        b"k" => Call::GoBack(fields.number()?),
        b"r" => Call::BumpReason(fields.index()?),
        b"f" => return parse_group(fields.0, group),
        _ => return Err(Refusal::Form),
    };
    fields.end()?;
    Ok(call)
}

fn parse_group<'a, 'b>(fields: impl Iterator<Item = &'b [u8]>, group: &'a mut Vec<usize>) -> Result<Call<'a>, Refusal> {
    group.clear();
    for field in fields {
        group.push(number(field)? as usize);
    }
    if group.len() > MAX_GROUP {
        return Err(Refusal::Form);
    }
    Ok(Call::Group(group))
}

/// A whole number in decimal without leading zeros, of 32 bits.
fn number(field: &[u8]) -> Result<u32, Refusal> {
    if !matches!(field, [b'0'] | [b'1'..=b'9', ..]) {
        return Err(Refusal::Form);
    }
    let mut value: u32 = 0;
    for &byte in field {
        let digit = byte.wrapping_sub(b'0');
        if digit > 9 {
            return Err(Refusal::Form);
        }
        value = value.checked_mul(10).and_then(|tens| tens.checked_add(digit.into())).ok_or(Refusal::Form)?;
    }
    Ok(value)
}

/// A clause number, or `-` for none; the figure that marks none is no clause number.
fn reason(field: &[u8]) -> Result<Option<usize>, Refusal> {
    match field {
        b"-" => Ok(None),
        _ => match number(field)? {
            u32::MAX => Err(Refusal::Form),
            cref => Ok(Some(cref as usize)),
        },
    }
}

/// The double whose bits are sixteen lower-case hexadecimal digits.
fn double(field: &[u8]) -> Result<f64, Refusal> {
    if field.len() != 16 {
        return Err(Refusal::Form);
    }
    let mut bits: u64 = 0;
    for &byte in field {
        let digit = match byte {
            b'0'..=b'9' => byte - b'0',
            b'a'..=b'f' => byte - b'a' + 10,
            _ => return Err(Refusal::Form),
        };
        bits = bits << 4 | u64::from(digit);
    }
    Ok(f64::from_bits(bits))
}

/// The answer lines written so far.
struct Answers<'a> {
    buffer: &'a mut [u8],
    len: usize,
    line: u32,
}

impl Answers<'_> {
    /// Writes the next line's answer: its number, its status and its reply.
    fn write(&mut self, outcome: Result<Reply, Refusal>) {
        self.line += 1;
        let (status, reply) = match outcome {
            Ok(reply) => (0, reply),
            Err(refusal) => (refusal as u32, None),
        };
        self.number(self.line);
        self.byte(TAB);
        self.number(status);
        self.byte(TAB);
        match reply {
            Some(reply) => self.number(reply as u32),
            None => self.byte(b'-'),
        }
        self.byte(NEWLINE);
    }

    fn byte(&mut self, byte: u8) {
        self.buffer[self.len] = byte;
        self.len += 1;
    }

    fn number(&mut self, mut value: u32) {
        let end = self.len + value.max(1).ilog10() as usize + 1;
        for place in self.buffer[self.len..end].iter_mut().rev() {
            *place = b'0' + (value % 10) as u8;
            value /= 10;
        }
        self.len = end;
    }
}

#[cfg(test)]
mod tests;
