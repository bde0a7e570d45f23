//! Ways to take a text's form, each by its name; then the text gets 15. A way says no where the text has not what it needs.

use crate::fields::{Fields, Line};
use reference::generator::Rng;

/// How a text that has its form loses it.
pub type Form = (&'static str, fn(&mut Fields, &mut Rng) -> Option<()>);

const NUMBERS: &str = "ctlqhv";
const LONG_NUMBERS: &str = "sk";
/// The lines of a text without clauses.
const LINES: usize = 9;

pub const FORMS: &[Form] = &[
    ("a leading zero", |text, rng| edit(text, "nctlqhvsk", rng, |field| field.insert(0, '0'))),
    ("a leading zero of a reason or a place to search", |text, rng| {
        let field = text.some_field("rf", rng).filter(|field| *field != "-")?;
        field.insert(0, '0');
        Some(())
    }),
    ("a sign before a number", |text, rng| edit(text, NUMBERS, rng, |field| field.insert(0, '+'))),
    ("a space before a field", |text, rng| edit(text, "nctlrqhaowvskf", rng, |field| field.insert(0, ' '))),
    ("a space behind a field", |text, rng| edit(text, "nctlrqhaowvskf", rng, |field| field.push(' '))),
    ("a letter in a number", |text, rng| edit(text, "ctlqhvsk", rng, |field| field.push('a'))),
    ("an empty field", |text, rng| edit(text, "nctlrqhaowvskf", rng, String::clear)),
    ("4294967296 for a number", |text, rng| edit(text, "ctlrqhvf", rng, |field| *field = "4294967296".into())),
    ("4294967296 variables", |text, _| put(text, 'n', 0, "4294967296")),
    ("4294967295 variables, and not so many fields", |text, _| put(text, 'n', 0, "4294967295")),
    ("4294967295 for a reason or a place to search", |text, rng| edit(text, "rf", rng, |field| *field = "4294967295".into())),
    ("18446744073709551616 for a number", |text, rng| edit(text, "ctlrqhvf", rng, |field| *field = "18446744073709551616".into())),
    ("18446744073709551616 for a long number", |text, rng| edit(text, LONG_NUMBERS, rng, |field| *field = "18446744073709551616".into())),
    ("a long number of 21 digits", |text, rng| edit(text, LONG_NUMBERS, rng, |field| *field = "100000000000000000000".into())),
    ("no number where one must be", |text, rng| edit(text, "nctlqhvsk", rng, |field| *field = "-".into())),
    ("two dashes", |text, rng| edit(text, "rf", rng, |field| *field = "--".into())),
    ("another switch", |text, rng| {
        let other = rng.pick(&["2", "00", "01", "-", "on"]);
        edit(text, "o", rng, |field| *field = other.into())
    }),
    ("an upper-case hexadecimal digit", |text, rng| {
        let field = text.some_field("aw", rng).filter(|field| field.contains(char::is_alphabetic))?;
        *field = field.to_uppercase();
        Some(())
    }),
    ("15 hexadecimal digits", |text, rng| edit(text, "aw", rng, |field| field.truncate(15))),
    ("17 hexadecimal digits", |text, rng| edit(text, "aw", rng, |field| field.insert(0, '0'))),
    ("a letter among hexadecimal digits", |text, rng| {
        let place = rng.below(16);
        edit(text, "aw", rng, |field| field.replace_range(place..=place, "g"))
    }),
    ("a field missing", |text, rng| text.some_line("nlrqaowvskf", rng)?.fields.pop().map(drop)),
    ("a code missing on the trail", |text, _| text.line('t')?.pop().map(drop)),
    ("a field too many", |text, rng| {
        let line = text.some_line("ntlrqaowvskf", rng)?;
        let again = line.fields[0].clone();
        line.fields.push(again);
        Some(())
    }),
    ("one variable more", |text, _| {
        let more = text.n() + 1;
        put(text, 'n', 0, &more.to_string())
    }),
    ("one variable less", |text, _| {
        let less = text.n().checked_sub(1)?;
        put(text, 'n', 0, &less.to_string())
    }),
    ("the other mode's word", |text, _| {
        let mode = &mut text.line('n')?[1];
        *mode = if mode == "vsids" { "vmtf" } else { "vsids" }.into();
        Some(())
    }),
    ("a word that is no mode", |text, rng| put(text, 'n', 1, rng.pick(&["vsid", "vsidss", "vmt", "VMTF", "heap"]))),
    ("a line missing", |text, rng| {
        let place = other_than_clause(text, rng);
        text.0.remove(place);
        Some(())
    }),
    ("a line twice", |text, rng| {
        let place = other_than_clause(text, rng);
        let line = text.0[place].clone();
        text.0.insert(place, line);
        Some(())
    }),
    ("two lines in each other's places", |text, rng| {
        let (one, other) = (rng.below(text.0.len()), rng.below(text.0.len()));
        text.0.swap(one, other);
        Some(()).filter(|()| text.0[one].letter != text.0[other].letter)
    }),
    ("a clause behind its place", |text, rng| {
        let place = text.clauses() + 2 + rng.below(4);
        text.0.insert(place, Line { letter: "c".into(), fields: vec![] });
        Some(())
    }),
    ("a line's letter twice", |text, rng| {
        let line = &mut text.0[rng.below(LINES)];
        line.letter = line.letter.repeat(2);
        Some(())
    }),
    ("a line without its letter", |text, rng| {
        text.0[rng.below(LINES)].letter.clear();
        Some(())
    }),
    ("an upper-case letter", |text, rng| {
        let line = &mut text.0[rng.below(LINES)];
        line.letter = line.letter.to_uppercase();
        Some(())
    }),
    ("an empty line", |text, rng| {
        let place = rng.below(text.0.len() + 1);
        text.0.insert(place, Line { letter: String::new(), fields: vec![] });
        Some(())
    }),
    ("a line behind the last", |text, rng| {
        let letter = rng.pick(&["n", "t", "q", "w", "f", "x", " "]);
        text.0.push(Line { letter: letter.into(), fields: vec!["0".into()] });
        Some(())
    }),
];

/// Changes one of the fields of a line with one of the letters.
fn edit(text: &mut Fields, letters: &str, rng: &mut Rng, change: impl FnOnce(&mut String)) -> Option<()> {
    change(text.some_field(letters, rng)?);
    Some(())
}

fn put(text: &mut Fields, letter: char, place: usize, field: &str) -> Option<()> {
    *text.line(letter)?.get_mut(place)? = field.into();
    Some(())
}

fn other_than_clause(text: &Fields, rng: &mut Rng) -> usize {
    let all: Vec<usize> = (0..text.0.len()).filter(|&place| text.0[place].letter != "c").collect();
    rng.pick(&all)
}

/// The text with each byte in turn changed to some others, dropped and doubled, and with its end cut off or another behind it.
pub fn byte_by_byte(text: &[u8]) -> Vec<Vec<u8>> {
    const BYTES: &[u8] = b"\t\n 0129-acfFnsvx\0\x80\xff";
    let mut texts = Vec::new();
    for place in 0..text.len() {
        let (before, behind) = (&text[..place], &text[place + 1..]);
        let others = BYTES.iter().copied().chain([text[place] ^ 1, text[place] ^ 0x20, text[place].wrapping_add(1)]);
        texts.extend(others.filter(|&other| other != text[place]).map(|other| [before, &[other], behind].concat()));
        texts.push([before, behind].concat());
        texts.push([before, &[text[place], text[place]], behind].concat());
        texts.push(before.to_vec());
    }
    texts.extend(BYTES.iter().map(|&byte| [text, &[byte]].concat()));
    texts.push([text, text].concat());
    texts
}
