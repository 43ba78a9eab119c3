//! How often each actor of a flat dataflow model fires in an iteration.

/// The least whole numbers with which each channel gets as many tokens as are taken from it. Of each channel `flows` has
/// the two ends among so many actors, how many tokens a firing gives to it, and how many one takes from it.
pub fn repetitions(actors: usize, flows: impl Iterator<Item = (usize, usize, usize, usize)>) -> Vec<usize> {
    let mut ends: Vec<Vec<(usize, u64, u64)>> = vec![Vec::new(); actors];
    for (from, to, gives, takes) in flows {
        ends[from].push((to, gives as u64, takes as u64));
        ends[to].push((from, takes as u64, gives as u64));
    }
    let mut ratios: Vec<Option<(u64, u64)>> = vec![None; actors];
    let mut counts = vec![0; actors];
    for root in 0..actors {
        if ratios[root].is_some() {
            continue;
        }
        ratios[root] = Some((1, 1));
        let mut part = vec![root];
        let mut next = 0;
        while next < part.len() {
            let (above, below) = ratios[part[next]].expect("a ratio");
            for &(other, gives, takes) in &ends[part[next]] {
                if ratios[other].is_none() {
                    let common = divisor(above * gives, below * takes);
                    ratios[other] = Some((above * gives / common, below * takes / common));
                    part.push(other);
                }
            }
            next += 1;
        }
        let multiple = part.iter().fold(1, |so_far, &node| {
            let below = ratios[node].expect("a ratio").1;
            so_far / divisor(so_far, below) * below
        });
        for node in part {
            let (above, below) = ratios[node].expect("a ratio");
            counts[node] = (multiple / below * above) as usize;
        }
    }
    counts
}

fn divisor(mut a: u64, mut b: u64) -> u64 {
    while b != 0 {
        (a, b) = (b, a % b);
    }
    a
}
