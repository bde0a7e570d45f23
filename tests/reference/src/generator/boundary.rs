use crate::sheet::{ANSWER_ROOM, MAX_SHEET};

/// A sheet made for one limit, with the length of the answer buffer that it is run with.
pub struct Named {
    pub name: String,
    pub sheet: Vec<u8>,
    pub room: usize,
}

/// The buffer of the program that reads standard input.
const PROGRAM_ROOM: usize = 65_536;
const MODES: [&str; 2] = ["vsids", "vmtf"];

/// All named sheets.
pub fn named() -> Vec<Named> {
    let mut all = Sheets(Vec::new());
    all.sizes();
    all.first_lines();
    for mode in MODES {
        all.variables(mode);
        all.clauses(mode);
        all.groups(mode);
        all.lengths(mode);
        all.buffers(mode);
        all.refusals(mode);
        all.bytes(mode);
        all.depth(mode);
        all.scaling(mode);
        all.doubles(mode);
    }
    all.0
}

fn newlines(sheet: &[u8]) -> usize {
    sheet.iter().filter(|&&byte| byte == b'\n').count()
}

fn heading(num_vars: usize, mode: &str) -> String {
    format!("n\t{num_vars}\t{mode}\n")
}

/// Lines written with | for a tab and parted by spaces.
fn lines(text: &str) -> String {
    text.split_whitespace().map(|line| line.replace('|', "\t") + "\n").collect()
}

/// Decides to the end, back to 0 and a decide once more.
fn drain(num_vars: usize) -> String {
    "g\t1\n".repeat(num_vars + 1) + "k\t0\ng\t0\n"
}

/// The line that sets a decay.
fn set_decay(decay: f64) -> String {
    format!("w\t{:016x}\n", decay.to_bits())
}

/// So many decays by one half: from a step of 1 they lead to a power of two.
fn halves(count: usize) -> String {
    set_decay(0.5) + &"y\n".repeat(count)
}

/// The calls that bring a fresh step to just this double: halves up to the power of two below it, then the decay whose rounded quotient is the rest.
fn step_of(step: f64) -> String {
    let power = step.log2().floor();
    let rest = step / power.exp2();
    let near = (1.0 / rest).to_bits();
    let decay = (near - 2..=near + 2).map(f64::from_bits).find(|decay| 1.0 / decay == rest);
    halves(power as usize) + &set_decay(decay.expect("quotients are no further apart than doubles")) + "y\n"
}

/// A line of a letter and the numbers below a bound.
fn numbers(letter: &str, bound: usize) -> String {
    (0..bound).fold(letter.to_string(), |line, number| line + &format!("\t{number}")) + "\n"
}

struct Sheets(Vec<Named>);

impl Sheets {
    fn add_with(&mut self, name: impl Into<String>, sheet: impl Into<Vec<u8>>, room: usize) {
        self.0.push(Named { name: name.into(), sheet: sheet.into(), room });
    }

    /// A sheet with just the room it must have.
    fn add(&mut self, name: impl Into<String>, sheet: impl Into<Vec<u8>>) {
        let sheet = sheet.into();
        let room = ANSWER_ROOM * newlines(&sheet);
        self.add_with(name, sheet, room);
    }

    fn sizes(&mut self) {
        self.add("empty sheet", "");
        self.add("no newline", "n\t1\tvsids");
        self.add("a newline alone", "\n");
        self.add("32,768 newlines", "\n".repeat(MAX_SHEET));
        self.add("32,769 newlines", "\n".repeat(MAX_SHEET + 1));
        self.add("32,768 bytes without newline", "x".repeat(MAX_SHEET));
        self.add("32,769 bytes without newline", "x".repeat(MAX_SHEET + 1));
        self.add_with("too long and no room", "\n".repeat(MAX_SHEET + 1), 0);
    }

    fn first_lines(&mut self) {
        for byte in 0..=u8::MAX {
            let mut sheet = b" \t1\tvsids\ng\t1\n".to_vec();
            sheet[0] = byte;
            self.add(format!("first byte {byte}"), sheet);
        }
        let wrong = [
            "n",
            "n\t",
            "n\t1",
            "n\t1\t",
            "n\t1\tvsids\t",
            "n\t01\tvsids",
            "n\t1\tVSIDS",
            "n\t1\tvmtfs",
            "n\t1\tvsid",
            "n 1 vsids",
            "n\t4294967296\tvmtf",
        ];
        for line in wrong {
            self.add(format!("first line {line:?}"), format!("{line}\ng\t1\n"));
        }
    }

    fn variables(&mut self, mode: &str) {
        for num_vars in [0, 1, 2, 3, 2047, 2048, 2049, 4_294_967_295] {
            let tail = drain(num_vars.min(2100));
            self.add(format!("{mode}, N = {num_vars}"), heading(num_vars, mode) + &tail);
        }
    }

    fn clauses(&mut self, mode: &str) {
        let tail = "e\t0\t2047\ne\t2\t2048\nr\t0\ng\t1\ng\t1\ng\t1\n";
        for count in [2047, 2048, 2049] {
            let sheet = heading(3, mode) + &"c\t5\t1\n".repeat(count) + tail;
            self.add(format!("{mode}, {count} clauses"), sheet);
        }
        for count in [8191, 8192, 8193] {
            let one = heading(3, mode) + "c" + &"\t5".repeat(count) + "\nc\t3\nc\ne\t0\t0\ne\t2\t1\nr\t0\n" + tail;
            self.add(format!("{mode}, {count} literals in one clause"), one);
            let many =
                heading(3, mode) + &"c\t1\t2\t3\t4\t5\t4\t3\t2\n".repeat(1023) + "c" + &"\t4".repeat(count - 8184) + "\nc\nc\t1\n" + tail;
            self.add(format!("{mode}, {count} literals in many clauses"), many);
        }
        let full = heading(5, mode) + &"c\t1\t2\t8\t9\n".repeat(2049) + "e\t6\t2047\nr\t3\n" + &drain(5);
        self.add(format!("{mode}, 2,048 clauses of 4 literals"), full);
        self.add(
            format!("{mode}, greatest codes"),
            heading(2048, mode) + "c\t4095\t4094\nc\t4096\nc\t4294967295\nc\t4294967296\ng\t1\ng\t1\n",
        );
        for end in ["", "g\t1", "\tc", "C\t1", "z", "c\tx\n\nc\t3"] {
            let sheet = heading(2, mode) + "c\t1\ncx\nc\t\nc\t3\t2\n" + end + "\nc\t1\ne\t0\t1\ne\t2\t2\n";
            self.add(format!("{mode}, clauses up to {end:?}"), sheet);
        }
        self.add(format!("{mode}, no variable for a clause"), heading(0, mode) + "c\nc\t0\nc\nc\t1\te\ne\t0\t0\ng\t1\n");
    }

    fn groups(&mut self, mode: &str) {
        let all = numbers("f", 2048);
        self.add(format!("{mode}, a group of 2,048"), heading(2048, mode) + &all + &drain(2048));
        let over = all.trim_end().to_string() + "\t0\n";
        self.add(format!("{mode}, a group of 2,049"), heading(2048, mode) + &over + &drain(2048));
        let same = |count| heading(3, mode) + "f" + &"\t2".repeat(count) + "\n" + &drain(3);
        self.add(format!("{mode}, one variable 2,048 times"), same(2048));
        self.add(format!("{mode}, one variable 2,049 times"), same(2049));
        let last = heading(2048, mode) + all.trim_end() + "\nf\t2047\nf\t5\t2048\nf\t2048\nf\nk\t0\ng\t1\n";
        self.add(format!("{mode}, groups around N"), last);
    }

    fn lengths(&mut self, mode: &str) {
        let mut sheet = heading(40, mode).into_bytes();
        let lines: [&[u8]; 6] = [b"g\t1\n", b"b\t7\n", b"f\t3\t9\t39\n", b"k\t2\n", b"y\n", b"e\t77\t-\n"];
        for line in lines.iter().cycle() {
            if sheet.len() + line.len() > MAX_SHEET {
                break;
            }
            sheet.extend(*line);
        }
        sheet.resize(MAX_SHEET - 1, b'g');
        self.add(format!("{mode}, 32,767 bytes"), sheet.clone());
        sheet.push(b'\n');
        self.add(format!("{mode}, 32,768 bytes"), sheet.clone());
        sheet.push(b'\n');
        self.add(format!("{mode}, 32,769 bytes"), sheet);
        let mut empties = heading(1, mode).into_bytes();
        empties.resize(MAX_SHEET, b'\n');
        self.add(format!("{mode}, as many lines as fit"), empties);
    }

    fn buffers(&mut self, mode: &str) {
        for count in [2730, 2731] {
            let sheet = heading(4, mode) + &"g\t1\nk\t0\n".repeat(count / 2) + &"y\n".repeat((count - 1) % 2);
            let sheet = sheet.split_inclusive('\n').take(count).collect::<String>();
            self.add_with(format!("{mode}, {count} newlines for the program"), sheet, PROGRAM_ROOM);
        }
        let sheet = heading(2, mode) + "c\t1\ng\t1\nk\t0\n rest";
        let exact = ANSWER_ROOM * newlines(sheet.as_bytes());
        for room in [0, exact - 1, exact, exact + 1] {
            self.add_with(format!("{mode}, a buffer of {room} for {exact}"), sheet.clone(), room);
        }
    }

    /// Each refusal that a sheet can get, and the order in which they are found.
    fn refusals(&mut self, mode: &str) {
        let variables = "b|2 i|2 o|2 r|2 e|4|- e|4|9 u|4 f|2 f|0|1|2 ";
        let assigned = "g|2 g|4294967295 e|0|1 e|0|4294967294 e|0|4294967295 e|0|0 e|0|- e|1|1 u|1 g|1 u|2 u|3 ";
        let decays = "w|3fdfffffffffffff w|7ff8000000000000 w|fff8000000000000 w|7ff0000000000000 w|0000000000000000 \
                      w|3fe0000000000000 w|3ff0000000000000 w|3ff0000000000001 w|3fE0000000000000 ";
        let calls = lines(variables) + &lines(assigned) + &lines(decays) + &lines("c|1 n|1|vsids") + "\n";
        self.add(format!("{mode}, refusals"), heading(2, mode) + &lines("c|1|3 c|4 c|x") + &calls);
        self.add(format!("{mode}, back and stuck"), heading(2, mode) + &lines("g|1 g|1 k|0 g|2 g|1 u|1 g|1 u|3 g|1"));
    }

    /// Every byte in the places where bytes are looked up.
    fn bytes(&mut self, mode: &str) {
        for (place, line) in [(0, "?"), (0, "?\t0"), (0, "?\t0\t0"), (1, "b?0"), (2, "b\t?"), (3, "b\t1?"), (17, "w\t3fe000000000000?")] {
            let mut sheet = heading(12, mode).into_bytes();
            for byte in 0..=u8::MAX {
                sheet.extend(line.bytes());
                let end = sheet.len();
                sheet[end - line.len() + place] = byte;
                sheet.push(b'\n');
            }
            sheet.extend(drain(12).bytes());
            self.add(format!("{mode}, every byte in {line:?}"), sheet);
        }
        for byte in (0..=u8::MAX).filter(|&byte| byte != b'\n') {
            let mut sheet = (heading(2, mode) + "c\t3\nc\t?\nc\t1\ne\t0\t1\ne\t2\t2\n").into_bytes();
            let place = sheet.iter().position(|&b| b == b'?').expect("the sheet has the mark");
            sheet[place] = byte;
            self.add(format!("{mode}, byte {byte} as a code"), sheet);
        }
    }

    fn depth(&mut self, mode: &str) {
        let deep =
            heading(2048, mode) + &"g\t1\n".repeat(2049) + "k\t2047\nk\t1024\nk\t1024\ng\t0\nk\t1\nk\t0\nk\t0\n" + &"g\t0\n".repeat(100);
        self.add(format!("{mode}, 2,048 levels"), deep);
        let enqueued: String = (0..2048).map(|var| format!("e\t{}\t-\n", 2 * var + 1)).collect();
        self.add(format!("{mode}, 2,048 enqueued"), heading(2048, mode) + &enqueued + "g\t1\nk\t0\nu\t0\n");
        self.add(
            format!("{mode}, 2,048 off"),
            heading(2048, mode) + &(0..2048).map(|var| format!("o\t{var}\n")).collect::<String>() + "g\t1\nk\t0\ni\t5\ng\t1\n",
        );
    }

    /// Steps that grow past the limits of activity and step.
    fn scaling(&mut self, mode: &str) {
        for count in [332, 333, 664, 665] {
            let sheet = heading(9, mode) + "b\t3\nb\t3\nb\t4\n" + &halves(count) + "b\t5\nb\t5\nb\t6\nb\t3\nb\t5\ny\nb\t7\n" + &drain(9);
            self.add(format!("{mode}, {count} halves"), sheet);
        }
        let again = (halves(340) + "b\t1\nb\t2\nb\t2\nr\t0\n").repeat(12);
        self.add(
            format!("{mode}, scaled many times"),
            heading(9, mode) + "c\t0\t6\t8\t8\ne\t0\t0\nb\t3\nb\t5\nb\t5\n" + &again + &drain(9),
        );
        let by_default = "y\n".repeat(9000);
        self.add(format!("{mode}, the fresh decay to its end"), heading(2, mode) + &by_default + "b\t1\ny\ny\nb\t0\n" + &drain(2));
    }

    /// Doubles just at the limits, and activities that only rounding tells apart.
    fn doubles(&mut self, mode: &str) {
        for step in [1e100_f64, 1e200] {
            for step in [f64::from_bits(step.to_bits() - 1), step, f64::from_bits(step.to_bits() + 1)] {
                let calls = step_of(step) + "b\t0\n" + &set_decay(1.0) + "y\nb\t1\n" + &halves(340) + "b\t1\n" + &halves(340);
                self.add(format!("{mode}, a step of {step:e}"), heading(3, mode) + &calls + &drain(3));
            }
        }
        // with the golden ratio as quotient each step is the sum of the two before it, but for rounding
        let golden = set_decay(2.0 / (1.0 + 5_f64.sqrt()));
        let pairs: String = (0..100).map(|pair| format!("b\t{0}\ny\nb\t{0}\ny\nb\t{1}\n", 2 * pair, 2 * pair + 1)).collect();
        self.add(format!("{mode}, apart by rounding"), heading(200, mode) + &golden + &pairs + &drain(200));
    }
}
