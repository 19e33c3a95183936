//! Makes an input smaller and plainer for as long as something stays true of it.

/// The input cut short and with as many bytes zero as `holds` allows.
pub fn shrink(input: &[u8], mut holds: impl FnMut(&[u8]) -> bool) -> Vec<u8> {
    let mut best = input.to_vec();
    loop {
        let before = best.clone();
        cut(&mut best, &mut holds);
        clear(&mut best, &mut holds);
        if best == before {
            return best;
        }
    }
}

/// Takes bytes off the end: large steps first.
fn cut(best: &mut Vec<u8>, holds: &mut impl FnMut(&[u8]) -> bool) {
    let mut step = best.len();
    while step > 0 {
        let shorter = best.len().saturating_sub(step);
        if shorter < best.len() && holds(&best[..shorter]) {
            best.truncate(shorter);
        } else {
            step /= 2;
        }
    }
}

/// Sets runs of bytes to zero: long runs first.
fn clear(best: &mut [u8], holds: &mut impl FnMut(&[u8]) -> bool) {
    for run in [64, 16, 4, 1] {
        for start in (0..best.len()).step_by(run) {
            let end = (start + run).min(best.len());
            if best[start..end].iter().all(|&b| b == 0) {
                continue;
            }
            let saved = best[start..end].to_vec();
            best[start..end].fill(0);
            if !holds(best) {
                best[start..end].copy_from_slice(&saved);
            }
        }
    }
}
