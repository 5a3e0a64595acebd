//! Shortens a list that fails: parts are left out, halves first and single items last, then two items are joined to one and items are made
//! simpler, as long as it still fails.

/// The shortest failing list found. `fails` gives how many items from the first on were needed for the failure, if there is one; `joined` gives
/// single items for two neighbours, and `simpler` items of less than this one's weight, so that there is an end.
pub fn shortest<T: Clone>(
    list: &[T],
    fails: impl Fn(&[T]) -> Option<usize>,
    joined: impl Fn(&T, &T) -> Vec<T>,
    simpler: impl Fn(&T) -> Vec<T>,
) -> Vec<T> {
    let mut list = list.to_vec();
    // Takes the place of the list if it fails too.
    let tried = |list: &mut Vec<T>, mut candidate: Vec<T>| match fails(&candidate) {
        Some(needed) => {
            candidate.truncate(needed);
            *list = candidate;
            true
        }
        None => false,
    };
    let whole = list.clone();
    tried(&mut list, whole);
    loop {
        let mut changed = false;
        let mut size = list.len().div_ceil(2);
        while size > 0 {
            let mut from = 0;
            while from < list.len() {
                let to = list.len().min(from + size);
                let without = [&list[..from], &list[to..]].concat();
                if tried(&mut list, without) {
                    changed = true;
                } else {
                    from += size;
                }
            }
            size /= 2;
        }
        let mut at = 1;
        while at < list.len() {
            let join = joined(&list[at - 1], &list[at]).into_iter().any(|item| {
                let candidate = [&list[..at - 1], &[item], &list[at + 1..]].concat();
                tried(&mut list, candidate)
            });
            changed |= join;
            at += usize::from(!join);
        }
        let mut at = 0;
        while at < list.len() {
            let simplified = simpler(&list[at]).into_iter().any(|item| {
                let mut candidate = list.clone();
                candidate[at] = item;
                tried(&mut list, candidate)
            });
            changed |= simplified;
            at += usize::from(!simplified);
        }
        if !changed {
            return list;
        }
    }
}

/// Smaller numbers, the smallest first: 0, then ever nearer to x.
pub fn smaller(x: u64) -> Vec<u64> {
    std::iter::successors(Some(x), |less| Some(less / 2)).take_while(|less| *less > 0).map(|less| x - less).collect()
}
