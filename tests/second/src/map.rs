//! Document 02, K2, "Keep the long stretches": the search for free blocks.

use crate::record::Shared;

/// Free blocks side by side: the first of them and how many they are.
#[derive(Clone, Copy, Debug, PartialEq, Eq)]
pub struct Stretch {
    pub start: usize,
    pub length: usize,
}

/// "a stretch goes, from block 1 on, as far as no block is taken": all of
/// them in the image, ascending. For a fit shared record.
pub fn stretches(shared: &Shared) -> Vec<Stretch> {
    let mut stretches = Vec::new();
    let mut start = 1;
    while start < shared.blocks {
        let free = (start..shared.blocks).take_while(|&block| !shared.is_taken(block));
        let length = free.count();
        if length > 0 {
            stretches.push(Stretch { start, length });
        }
        // The block behind it is taken, or past the end.
        start += length + 1;
    }
    stretches
}

/// "the shortest free stretch that is long enough, the lowest of equals"
pub fn find(shared: &Shared, count: usize) -> Option<Stretch> {
    stretches(shared)
        .into_iter()
        .filter(|stretch| stretch.length >= count)
        .min_by_key(|stretch| (stretch.length, stretch.start))
}

/// Takes a run of `count` blocks, the found stretch's "first blocks": its
/// first block and the shared record then.
pub fn take_run(shared: &Shared, count: usize) -> Option<(usize, Shared)> {
    let Stretch { start, .. } = find(shared, count)?;
    let mut after = shared.clone();
    for block in start..start + count {
        after.take(block);
    }
    Some((start, after))
}

/// Frees a run of blocks.
pub fn free_run(shared: &mut Shared, start: usize, count: usize) {
    for block in start..start + count {
        shared.free(block);
    }
}
