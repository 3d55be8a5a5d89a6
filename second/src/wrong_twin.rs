//! A twin that is wrong on purpose, in the ways of `wrong` that are about it.

use crate::cycles::greatest_cycle;
use crate::findings::{sc_steps, Findings};
use crate::relations::{closure, matrix, Relations};
use crate::report::Report;
use crate::table::{read_table, Record};
use crate::text::{answer_lines, refusal_line};
use crate::twin::{twin_text, MOST_TWIN_BYTES, TOO_LARGE};
use crate::wrong::{asked, Way};

/// What this build writes for an input: the right text, or wrong in the way that was asked for.
pub fn twin_as_built(bytes: &[u8], depth: usize) -> String {
    match asked() {
        None => twin_text(bytes, depth),
        Some(way) => wrong_twin(bytes, depth, way),
    }
}

/// The text wrong in this way, where the way makes a difference.
pub fn wrong_twin(bytes: &[u8], depth: usize, way: Way) -> String {
    let right = twin_text(bytes, depth);
    let spoil = match way {
        Way::TooLargeAt384 if bytes.len() == MOST_TWIN_BYTES => return TOO_LARGE.to_string(),
        Way::TestsFirst => return read_table(bytes).err().map_or(right, refusal_line),
        _ if right == TOO_LARGE => return right,
        Way::SwAnySource => sw_any_source,
        Way::StopsAtThreadStart => stops_at_thread_start,
        Way::AnyCycle => any_cycle,
        _ => return right,
    };
    answer_lines(read_table(bytes).map(|records| {
        let right = Relations::of(&records, depth);
        Report { events: records.len(), findings: spoil(&records, right) }
    }))
}

/// sw from any source, releasing or not.
fn sw_any_source(records: &[Record], right: Relations) -> Findings {
    let sw = matrix(records.len(), |a, b| records[b].source == Some(a) && records[b].order.acquires());
    let hb = closure(&matrix(records.len(), |a, b| right.po[a][b] || sw[a][b]));
    Findings::of(records, &Relations::after(records, right.po, sw, hb))
}

/// For happens-before, an Init has no step of po from its parent: all that stands above a record in its own thread is
/// left.
fn stops_at_thread_start(records: &[Record], right: Relations) -> Findings {
    let in_thread = |a: usize, b: usize| right.po[a][b] && records[a].thread == records[b].thread;
    let hb = closure(&matrix(records.len(), |a, b| in_thread(a, b) || right.sw[a][b]));
    Findings::of(records, &Relations::after(records, right.po, right.sw, hb))
}

/// Cycles of the fewest records that are not the least, where there are several.
fn any_cycle(records: &[Record], right: Relations) -> Findings {
    Findings {
        a1: greatest_cycle(&right.wb0),
        a4: greatest_cycle(&sc_steps(records, &right)),
        ..Findings::of(records, &right)
    }
}
