use std::fmt;

/// What was run so far.
#[derive(Default)]
pub struct Tally {
    sheets: u64,
    bytes: u64,
    lines: u64,
    /// The answers of each status; 1 and 2 count sheets that were not run.
    statuses: [u64; 15],
}

impl Tally {
    pub fn add(&mut self, sheet: &[u8], returned: u32, answers: &[u8]) {
        self.sheets += 1;
        self.bytes += sheet.len() as u64;
        match u32::MAX - returned {
            refused @ 1..=2 => self.statuses[refused as usize] += 1,
            _ => self.add_answers(&answers[..returned as usize]),
        }
    }

    fn add_answers(&mut self, answers: &[u8]) {
        for line in answers.split_inclusive(|&byte| byte == b'\n') {
            let mut fields = line.split(|&byte| byte == b'\t');
            let status = fields.nth(1).expect("an answer has a status");
            let status = status.iter().fold(0, |number, digit| 10 * number + usize::from(digit - b'0'));
            self.lines += 1;
            self.statuses[status] += 1;
        }
    }
}

impl fmt::Display for Tally {
    fn fmt(&self, f: &mut fmt::Formatter<'_>) -> fmt::Result {
        write!(f, "{} sheets, {} bytes, {} lines answered; by status:", self.sheets, self.bytes, self.lines)?;
        let mut counted = self.statuses.iter().enumerate().filter(|(_, &count)| count > 0);
        counted.try_for_each(|(status, count)| write!(f, " {status}: {count}"))
    }
}
