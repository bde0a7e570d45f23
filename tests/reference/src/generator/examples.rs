/// An example that a document shows: a fenced block with a word behind its fence, and | for a tab.
///
/// A line of a sheet is followed by an arrow `→` and its answer; without an arrow the run has ended and nothing answers.
#[derive(Debug, PartialEq, Eq)]
pub enum Example {
    /// `sheet`: a sheet and its answers.
    Sheet(Vec<u8>, Vec<u8>),
    /// `saved`: the text of a session.
    Saved(Vec<u8>),
    /// `carried`: a sheet of calls on the session that the example before it leaves, and its answers.
    Carried(Vec<u8>, Vec<u8>),
}

/// All examples of a document, in their order.
pub fn all_examples(document: &str) -> Vec<Example> {
    let mut examples = Vec::new();
    let mut lines = document.lines();
    while let Some(line) = lines.next() {
        let block = lines.clone().take_while(|line| *line != "```");
        let example = match line {
            "```sheet" => answered(block, Example::Sheet),
            "```saved" => Example::Saved(text(block)),
            "```carried" => answered(block, Example::Carried),
            _ => continue,
        };
        examples.push(example);
    }
    examples
}

/// The sheets that a document shows, each with its answers.
pub fn examples(document: &str) -> Vec<(Vec<u8>, Vec<u8>)> {
    let sheet = |example| match example {
        Example::Sheet(sheet, answers) => Some((sheet, answers)),
        _ => None,
    };
    all_examples(document).into_iter().filter_map(sheet).collect()
}

/// The saved sessions that a document shows.
pub fn saved_examples(document: &str) -> Vec<Vec<u8>> {
    let saved = |example| match example {
        Example::Saved(text) => Some(text),
        _ => None,
    };
    all_examples(document).into_iter().filter_map(saved).collect()
}

fn answered<'a>(block: impl Iterator<Item = &'a str>, example: fn(Vec<u8>, Vec<u8>) -> Example) -> Example {
    let (mut sheet, mut answers) = (Vec::new(), Vec::new());
    for line in block {
        let (asked, answer) = line.split_once('→').unwrap_or((line, ""));
        push(&mut sheet, asked.trim_end());
        if !answer.is_empty() {
            push(&mut answers, answer.trim());
        }
    }
    example(sheet, answers)
}

fn text<'a>(block: impl Iterator<Item = &'a str>) -> Vec<u8> {
    let mut text = Vec::new();
    block.for_each(|line| push(&mut text, line));
    text
}

fn push(text: &mut Vec<u8>, line: &str) {
    text.extend(line.replace('|', "\t").as_bytes());
    text.push(b'\n');
}
