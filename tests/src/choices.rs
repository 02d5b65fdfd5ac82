//! Greedy's choice by any size of the configurations that the options lead to, worked out with Move's down entries: so it can be asked whether another size
//! than F-5's would have chosen otherwise.

use crate::engine::{make_move, survey, DOWN, GREEDY};

/// The configurations that the options left of the drawn gate lead to, in their order: down takes them by number, and behind the last the first again. One,
/// if none is left. Only asked for configurations and entries that Move accepts.
fn ways(map: &[u8], configuration: &[u8], entry: &[u8]) -> Vec<Vec<u8>> {
    let mut list: Vec<Vec<u8>> = Vec::new();
    for option in 0..8 {
        let mut after = configuration.to_vec();
        let down = [entry[0], entry[1], DOWN, option];
        make_move(map, &mut after, &down, &mut vec![0; configuration.len()]).expect("an entry that Move accepts");
        if list.first() == Some(&after) {
            break;
        }
        list.push(after);
    }
    list
}

/// "of the options with the smallest interest set after the move, in rising order, the one at option modulo their number", by this size.
pub fn greedy_by(map: &[u8], configuration: &[u8], entry: &[u8], size: impl Fn(&[u8]) -> u64) -> Vec<u8> {
    let ways = ways(map, configuration, entry);
    let sizes: Vec<u64> = ways.iter().map(|after| size(after)).collect();
    let smallest = sizes.iter().min().expect("down leads somewhere");
    let best: Vec<&Vec<u8>> = ways.iter().zip(&sizes).filter(|(_, size)| *size == smallest).map(|(after, _)| after).collect();
    best[entry[3] as usize % best.len()].clone()
}

/// How many gates have the mark 4, NOT gates like others: the interest set's size before F-5.
pub fn marks(map: &[u8], configuration: &[u8]) -> u64 {
    let mut bytes = vec![0; configuration.len()];
    survey(map, configuration, &mut bytes).expect("a configuration that Survey accepts");
    bytes.iter().filter(|byte| **byte & 4 == 4).count() as u64
}

/// Whether a move is greedy and would have led elsewhere, did NOT gates carry weight. Only asked for moves that are accepted; `after` is what they led to.
pub fn shows_f5(map: &[u8], configuration: &[u8], entry: &[u8], after: &[u8]) -> bool {
    entry[2] == GREEDY && greedy_by(map, configuration, entry, |way| marks(map, way)) != after
}
