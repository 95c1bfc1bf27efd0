//! Makes a differing input smaller while it still differs.

const MOST_TRIES: usize = 1500;

/// Takes out runs of items, long ones first, as long as `differs` holds of what is left.
pub fn shrink<T: Clone>(mut items: Vec<T>, mut differs: impl FnMut(&[T]) -> bool) -> Vec<T> {
    let mut tries = 0;
    let mut run = items.len() / 2;
    while run > 0 && tries < MOST_TRIES {
        let mut at = 0;
        while at < items.len() && tries < MOST_TRIES {
            let end = (at + run).min(items.len());
            let left = [&items[..at], &items[end..]].concat();
            tries += 1;
            if differs(&left) {
                items = left;
            } else {
                at = end;
            }
        }
        run /= 2;
    }
    items
}

#[cfg(test)]
mod tests {
    use super::*;

    #[test]
    fn only_what_matters_is_left() {
        let items: Vec<u8> = (0..100).collect();
        let small = shrink(items, |left| left.contains(&17) && left.contains(&80));
        assert_eq!(small, [17, 80]);
    }
}
