//! Is an answer right? Nothing is searched for here.
use crate::format::{Fault, Question, Reader};
use crate::graph::{Graph, GRANT, TAKE};
use crate::search::Barrier;
use crate::set::{has, lowest, one, Vertex};

/// The program check.
pub fn check(bytes: &[u8]) -> Result<(), Fault> {
    let mut reader = Reader::new(bytes);
    let mut graph = reader.narrow_book()?;
    let question = reader.question(graph.size)?;
    let start = reader.at;
    match reader.byte()? {
        16 => check_plan(&mut reader, question, &mut graph),
        17 => check_sheet(&mut reader, question, &graph),
        _ => Err(Fault::at(1, start)),
    }
}

fn end(reader: &Reader) -> Result<(), Fault> {
    if reader.is_done() { Ok(()) } else { Err(Fault::at(1, reader.at)) }
}

fn check_plan(reader: &mut Reader, q: Question, graph: &mut Graph) -> Result<(), Fault> {
    let count = reader.count(4)?;
    let n = graph.size as usize + 2;
    if count > 8 * n * n {
        return Err(Fault::at(10, count));
    }
    for number in 0..count {
        graph.act(reader, number)?;
    }
    end(reader)?;
    if graph.has(q.holder, q.right, q.target) { Ok(()) } else { Err(Fault::at(10, count)) }
}

fn check_sheet(reader: &mut Reader, q: Question, graph: &Graph) -> Result<(), Fault> {
    let inner = reader.set(32, graph.size, 6)?.narrow();
    let into = reader.set(32, graph.size, 6)?.narrow();
    let out = reader.set(32, graph.size, 6)?.narrow();
    end(reader)?;
    if graph.has(q.holder, q.right, q.target) {
        return Err(Fault::at(7, q.holder as usize));
    }
    let sheet = Barrier { inner, out, into };
    for p in 0..graph.size {
        if has(out, p) && graph.has(p, q.right, q.target) {
            return Err(Fault::at(9, p as usize));
        }
    }
    for p in 0..graph.size {
        look(&sheet, graph, q.holder, p)?;
    }
    Ok(())
}

/// The conditions of one vertex and of its rights.
fn look(sheet: &Barrier, graph: &Graph, x: Vertex, p: Vertex) -> Result<(), Fault> {
    let subject = graph.subjects.has(p);
    let (inner, out, into) = (has(sheet.inner, p), has(sheet.out, p), has(sheet.into, p));
    if inner && !(subject && out && into) || subject && (out || into) && !inner || p == x && subject && !into {
        return Err(Fault::at(8, p as usize));
    }
    let (takes, grants) = (graph.targets(p, TAKE), graph.targets(p, GRANT));
    let (mut unfit_takes, mut unfit_grants) = (0, 0);
    if out {
        unfit_takes |= takes & !sheet.out;
        unfit_grants |= grants & !sheet.into;
    }
    if !into {
        unfit_takes |= takes & sheet.into;
        unfit_grants |= grants & (sheet.out | one(x));
    }
    for (right, unfit) in [(TAKE, unfit_takes), (GRANT, unfit_grants)] {
        if unfit != 0 {
            return Err(Fault { number: 8, place: vec![p as usize, right as usize, lowest(unfit) as usize] });
        }
    }
    Ok(())
}
