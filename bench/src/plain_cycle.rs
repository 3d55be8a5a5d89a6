//! The least cycle of a matrix, by breadth first.

use crate::plain_matrix::Matrix;

/// Of the cycles with the fewest records the least, number by number.
pub fn least_cycle(step: &Matrix) -> Option<Vec<usize>> {
    let size = step.size;
    let mut best: Option<(usize, usize, Vec<usize>)> = None;
    for start in 0..size {
        let back = steps_to(step, start);
        let lengths = (0..size).filter(|&x| step.has(start, x) && back[x] < size).map(|x| back[x] + 1);
        if let Some(length) = lengths.min() {
            if best.as_ref().is_none_or(|(least, _, _)| length < *least) {
                best = Some((length, start, back));
            }
        }
    }
    let (length, start, back) = best?;
    let mut list = vec![start];
    while list.len() < length {
        let (here, left) = (list[list.len() - 1], length - list.len());
        list.push((0..size).find(|&x| step.has(here, x) && back[x] == left)?);
    }
    Some(list)
}

/// The fewest steps from each record to this one; as many as there are records where there is no way.
fn steps_to(step: &Matrix, target: usize) -> Vec<usize> {
    let size = step.size;
    let mut fewest = vec![size; size];
    fewest[target] = 0;
    let mut reached = vec![target];
    let mut done = 0;
    while done < reached.len() {
        let b = reached[done];
        for a in 0..size {
            if step.has(a, b) && fewest[a] == size {
                fewest[a] = fewest[b] + 1;
                reached.push(a);
            }
        }
        done += 1;
    }
    fewest
}
