//! Cycles of a relation: the least one, which is a witness, and the greatest of as few records.

use crate::relations::{closure, matrix, turned, Matrix};

/// "The witness has fewest records, and of those is the least list, number by number."
/// Of rounds with equally many records, the one with the least first record is the least list.
pub fn least_cycle(step: &Matrix) -> Option<Vec<usize>> {
    let reached = closure(step);
    let back = turned(step);
    let mut least: Option<Vec<usize>> = None;
    for start in (0..step.len()).filter(|&record| reached[record][record]) {
        let round = shortest_round(step, &distances_to(&back, start), start, least_of);
        if least.as_ref().is_none_or(|found| round.len() < found.len()) {
            least = Some(round);
        }
    }
    least
}

/// The fewest steps from each record to the target, found breadth first. `back` has the steps turned.
fn distances_to(back: &Matrix, target: usize) -> Vec<Option<usize>> {
    let mut distance = vec![None; back.len()];
    distance[target] = Some(0);
    let mut reached = vec![target];
    let mut done = 0;
    while done < reached.len() {
        let b = reached[done];
        for a in 0..back.len() {
            if back[b][a] && distance[a].is_none() {
                distance[a] = distance[b].map(|steps| steps + 1);
                reached.push(a);
            }
        }
        done += 1;
    }
    distance
}

/// One of the shortest rounds from the start, which is on one: always the record that `choose` takes of those next ones
/// from which the way back is just long enough. A round of the fewest steps never meets a record twice, or a shorter
/// one would exist.
fn shortest_round(step: &Matrix, distance: &[Option<usize>], start: usize, choose: Choice) -> Vec<usize> {
    let next_of = |here: usize| (0..step.len()).filter(move |&b| step[here][b]);
    let length = 1 + next_of(start).filter_map(|b| distance[b]).min().expect("the start is on a round");
    let mut list = vec![start];
    while list.len() < length {
        let left = length - list.len();
        let fitting: Vec<usize> =
            next_of(list[list.len() - 1]).filter(|&b| distance[b] == Some(left)).collect();
        list.push(choose(&fitting).expect("the way back was found before"));
    }
    list
}

/// Which of several records, listed upward, a round goes on to.
type Choice = fn(&[usize]) -> Option<usize>;

fn least_of(records: &[usize]) -> Option<usize> {
    records.first().copied()
}

fn greatest_of(records: &[usize]) -> Option<usize> {
    records.last().copied()
}

/// Of the cycles of the fewest records, each listed from its own least record, the greatest list: the least cycle itself
/// if there is no other of as few.
pub fn greatest_cycle(step: &Matrix) -> Option<Vec<usize>> {
    let fewest = least_cycle(step)?.len();
    let greatest = |start| greatest_cycle_from(step, start).filter(|round| round.len() == fewest);
    (0..step.len()).rev().find_map(greatest)
}

/// The same of those whose least record is this one, if it is the least of some cycle.
pub fn greatest_cycle_from(step: &Matrix, start: usize) -> Option<Vec<usize>> {
    let from_start = matrix(step.len(), |a, b| step[a][b] && a.min(b) >= start);
    closure(&from_start)[start][start]
        .then(|| shortest_round(&from_start, &distances_to(&turned(&from_start), start), start, greatest_of))
}
