use super::{check, reader::Reader, room, writer::Writer, Saved};
use crate::{
    refusal::Refusal,
    sheet::Mode,
    trail::Trail,
    vmtf::{Node, VMTF},
    INVALID,
};

/// The lines of list mode as they stand.
pub struct ListLines {
    order: Vec<usize>,
    stamps: Vec<u64>,
    timestamp: u64,
    search: usize,
}

impl Saved for VMTF {
    const MODE: Mode = Mode::Vmtf;
    type Lines = ListLines;

    fn write(&self, writer: &mut Writer) {
        writer.line(b'v', from_front(self), |writer, var| writer.number(var as u32));
        writer.line(b's', from_front(self), |writer, var| writer.long_number(self[var].ts));
        writer.line(b'k', [self.timestamp], Writer::long_number);
        writer.line(b'f', [self.search], Writer::number_or_none);
    }

    fn read(reader: &mut Reader, n: u32) -> Result<ListLines, Refusal> {
        let order = reader.all(b'v', room(n), |reader| Ok(reader.number()? as usize))?;
        let stamps = reader.all(b's', room(n), Reader::long_number)?;
        let timestamp = reader.one(b'k', Reader::long_number)?;
        let search = reader.one(b'f', Reader::number_or_none)?;
        check(order.len() == n as usize && stamps.len() == n as usize, Refusal::Saved)?;
        Ok(ListLines { order, stamps, timestamp, search })
    }

    fn of(lines: ListLines, _trail: &Trail) -> Result<VMTF, Refusal> {
        let ListLines { order, stamps, timestamp, search } = lines;
        check(stamps.windows(2).all(|pair| pair[0] > pair[1]), Refusal::State)?;
        check(stamps.first().is_none_or(|&first| first < timestamp), Refusal::State)?;
        check(search == INVALID || search < order.len(), Refusal::State)?;
        let start = order.first().copied().unwrap_or(INVALID);
        Ok(VMTF { linked_list: link(&order, &stamps)?, timestamp, start, search, by_stamp: Vec::new() })
    }
}

/// The variables from the front on.
fn from_front(list: &VMTF) -> impl Iterator<Item = usize> + '_ {
    let variable = |link: usize| Some(link).filter(|&var| var != INVALID);
    std::iter::successors(variable(list.start), move |&var| variable(list[var].next))
}

/// The list in an order in which each variable stands once.
fn link(order: &[usize], stamps: &[u64]) -> Result<Vec<Node>, Refusal> {
    let mut nodes = vec![Node::default(); order.len()];
    let mut is_linked = vec![false; order.len()];
    let mut prev = INVALID;
    for (&var, &ts) in order.iter().zip(stamps) {
        check(is_linked.get(var) == Some(&false), Refusal::State)?;
        is_linked[var] = true;
        nodes[var] = Node { next: INVALID, prev, ts };
        if prev != INVALID {
            nodes[prev].next = var;
        }
        prev = var;
    }
    Ok(nodes)
}
