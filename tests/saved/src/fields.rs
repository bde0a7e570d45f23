//! A text as lines of fields, so that it can be changed in a place that is named.

use reference::generator::Rng;

/// A line: its letter, and its fields.
#[derive(Clone, Debug, PartialEq, Eq)]
pub struct Line {
    pub letter: String,
    pub fields: Vec<String>,
}

/// The lines of a text.
#[derive(Clone, Debug)]
pub struct Fields(pub Vec<Line>);

impl Line {
    fn of(line: &str) -> Self {
        let mut fields = line.split('\t').map(str::to_string);
        Line { letter: fields.next().unwrap_or_default(), fields: fields.collect() }
    }
}

impl Fields {
    /// The lines of a text that has its form.
    pub fn of(text: &[u8]) -> Self {
        let text = std::str::from_utf8(text).expect("a text is of plain letters");
        Fields(text.lines().map(Line::of).collect())
    }

    pub fn text(&self) -> Vec<u8> {
        let mut text = String::new();
        for line in &self.0 {
            text += &line.letter;
            line.fields.iter().for_each(|field| text += &format!("\t{field}"));
            text += "\n";
        }
        text.into_bytes()
    }

    pub fn n(&mut self) -> usize {
        self.line('n').expect("a text has its first line")[0].parse().expect("N is a number")
    }

    pub fn clauses(&self) -> usize {
        self.0.iter().filter(|line| line.letter == "c").count()
    }

    /// The fields of the line with a letter.
    pub fn line(&mut self, letter: char) -> Option<&mut Vec<String>> {
        self.0.iter_mut().find(|line| line.letter == letter.to_string()).map(|line| &mut line.fields)
    }

    /// One of the lines with one of the letters that has fields.
    pub fn some_line(&mut self, letters: &str, rng: &mut Rng) -> Option<&mut Line> {
        let is_due = |line: &Line| letters.contains(&line.letter) && !line.fields.is_empty();
        let count = self.0.iter().filter(|line| is_due(line)).count();
        let number = rng.below(Some(count).filter(|&count| count > 0)?);
        self.0.iter_mut().filter(|line| is_due(line)).nth(number)
    }

    /// One of the fields of such a line.
    pub fn some_field(&mut self, letters: &str, rng: &mut Rng) -> Option<&mut String> {
        let fields = &mut self.some_line(letters, rng)?.fields;
        let number = rng.below(fields.len());
        fields.get_mut(number)
    }
}

/// A field as a number.
pub fn number(field: &str) -> u64 {
    field.parse().expect("the field is a number")
}

/// A double's bits as a field.
pub fn bits(double: f64) -> String {
    format!("{:016x}", double.to_bits())
}

/// The double of such a field.
pub fn double(field: &str) -> f64 {
    f64::from_bits(u64::from_str_radix(field, 16).expect("the field is a double's bits"))
}
