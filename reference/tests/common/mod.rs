//! Every plan of a small block.

use reference::block::Block;

/// Every whole-sample plan in the windows.
pub fn plans(block: &Block) -> impl Iterator<Item = Vec<i64>> {
    let sizes = block.words.iter().map(|w| (w.upper - w.lower + 1) as usize);
    let sizes: Vec<usize> = sizes.collect();
    let lowers: Vec<i64> = block.words.iter().map(|w| w.lower.into()).collect();
    (0..sizes.iter().product()).map(move |mut number| {
        let mut plan = lowers.clone();
        for (time, size) in plan.iter_mut().zip(&sizes) {
            *time += (number % size) as i64;
            number /= size;
        }
        plan
    })
}
