//! A failing list made shorter: steps are dropped while a difference stays.

use crate::pair::{Difference, Pair};
use crate::steps::Step;

/// The first difference of a list, and the place of its step.
pub fn difference(list: &[Step]) -> Option<(usize, Box<Difference>)> {
    let mut pair = Pair::new();
    list.iter().enumerate().find_map(|(at, step)| pair.play(step).err().map(|found| (at, found)))
}

pub fn shrink(list: Vec<Step>) -> Vec<Step> {
    let mut list = list;
    let mut size = list.len() / 2;
    while size > 0 {
        let mut dropped = false;
        let mut start = 0;
        while start < list.len() {
            let end = list.len().min(start + size);
            let mut shorter = list[..start].to_vec();
            shorter.extend_from_slice(&list[end..]);
            match difference(&shorter) {
                Some((at, _)) => {
                    shorter.truncate(at + 1);
                    list = shorter;
                    dropped = true;
                }
                None => start = end,
            }
        }
        if size == 1 && dropped {
            continue;
        }
        size /= 2;
    }
    drop_changes(list)
}

/// Drops the changes of a caller that are not needed.
fn drop_changes(mut list: Vec<Step>) -> Vec<Step> {
    for at in 0..list.len() {
        let Some(Step::Call { slot, changes, call }) = list.get(at) else { continue };
        if changes.is_empty() {
            continue;
        }
        let mut plainer = list.clone();
        plainer[at] = Step::Call { slot: *slot, changes: Vec::new(), call: *call };
        if let Some((end, _)) = difference(&plainer) {
            plainer.truncate(end + 1);
            list = plainer;
        }
    }
    list
}
