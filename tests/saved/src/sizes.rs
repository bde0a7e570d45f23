//! Texts at the limits of their counts and above them, which hold no session.

/// A text by its name, with the status that it gets where the memory fits.
pub struct Sized {
    pub name: String,
    pub text: Vec<u8>,
    pub status: u32,
    pub is_list: bool,
}

/// A text over n variables of which none is on the trail, with clauses.
fn fresh(n: usize, is_list: bool, clauses: &str) -> Vec<u8> {
    let numbers = |numbers: &mut dyn Iterator<Item = usize>| numbers.map(|number| format!("\t{number}")).collect::<String>();
    let chooser = if is_list {
        let search = if n == 0 { "-" } else { "0" };
        format!("v{}\ns{}\nk\t{}\nf\t{search}\n", numbers(&mut (0..n)), numbers(&mut (0..n).rev()), n + 1)
    } else {
        let (activities, switches) = ("\t0000000000000000".repeat(n), "\t1".repeat(n));
        format!("h{}\na{activities}\no{switches}\nw\t3ff0000000000000\t3fee666666666666\n", numbers(&mut (0..n)))
    };
    let mode = if is_list { "vmtf" } else { "vsids" };
    format!("n\t{n}\t{mode}\n{clauses}t\nl\nr\nq\t0\n{chooser}").into_bytes()
}

/// So many clauses, the last with so many literals of variable 0.
fn clauses(count: usize, literals: usize) -> String {
    "c\n".repeat(count - 1) + "c" + &"\t1".repeat(literals) + "\n"
}

/// All such texts.
pub fn sizes() -> Vec<Sized> {
    let mut all = Vec::new();
    for is_list in [false, true] {
        let mut add = |name: &str, text: Vec<u8>, status: u32| all.push(Sized { name: name.into(), text, status, is_list });
        for n in [0, 1, 2, 2048] {
            add(&format!("{n} variables"), fresh(n, is_list, ""), 0);
            add(&format!("2,048 clauses over {n} variables"), fresh(n, is_list, &clauses(2048, 0)), 0);
            add(&format!("2,049 clauses over {n} variables"), fresh(n, is_list, &clauses(2049, 0)), 6);
            add(&format!("a code of 2N, N = {n}"), fresh(n, is_list, &format!("c\t{}\n", 2 * n)), 6);
            add(&format!("a code of 2N + 1, N = {n}"), fresh(n, is_list, &format!("c\nc\t{}\n", 2 * n + 1)), 6);
            add(&format!("a code of 4294967295, N = {n}"), fresh(n, is_list, "c\t4294967295\n"), 6);
        }
        for n in [1, 2, 2048] {
            add(&format!("8,192 literals over {n} variables"), fresh(n, is_list, &clauses(3, 8192)), 0);
            add(&format!("8,193 literals over {n} variables"), fresh(n, is_list, &clauses(3, 8193)), 6);
            add(&format!("2,048 clauses and 8,192 literals over {n} variables"), fresh(n, is_list, &clauses(2048, 8192)), 0);
        }
        add("a literal over no variables", fresh(0, is_list, "c\t0\n"), 6);
        for n in [2049, 4096] {
            add(&format!("{n} variables"), fresh(n, is_list, ""), 4);
            add(&format!("{n} variables, 2,049 clauses and 8,193 literals"), fresh(n, is_list, &clauses(2049, 8193)), 4);
        }
    }
    all
}
