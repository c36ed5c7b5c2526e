//! Items that threads claim, on one thread: it claims all of them in turn.
use kit::{Global, Vec};

pub fn for_each<R, T, F: Fn(usize, &mut T)>(_rt: &R, _alloc: Global, mut items: Vec<T>, _others: u8, act: &F) -> Vec<T> {
    for (i, item) in items.iter_mut().enumerate() {
        act(i, item);
    }
    items
}
