//! Shortens what shows a difference: parts are left out, large ones first, while the difference stays.

/// The shortest list found, from which no single item, and no neighbouring pair, can be left out.
pub fn shortest<T: Clone>(items: &[T], shows: impl Fn(&[T]) -> bool) -> Vec<T> {
    let mut items = items.to_vec();
    let mut size = items.len() / 2;
    while size > 2 {
        leave_out(&mut items, size, &shows);
        size /= 2;
    }
    while leave_out(&mut items, 1, &shows) | leave_out(&mut items, 2, &shows) {}
    items
}

/// Leaves out every part of this size that is not needed; whether there was one.
fn leave_out<T: Clone>(items: &mut Vec<T>, size: usize, shows: impl Fn(&[T]) -> bool) -> bool {
    // Large parts are tried side by side, pairs at every place.
    let stride = if size > 2 { size } else { 1 };
    let mut at = 0;
    let mut shorter = false;
    while at + size <= items.len() {
        let rest = [&items[..at], &items[at + size..]].concat();
        if shows(&rest) {
            *items = rest;
            shorter = true;
        } else {
            at += stride;
        }
    }
    shorter
}

#[cfg(test)]
mod tests {
    use super::shortest;

    #[test]
    fn what_is_not_needed_goes() {
        let items: Vec<u32> = (0..1_000).collect();
        let needed = |items: &[u32]| items.contains(&17) && items.contains(&801);
        assert_eq!(shortest(&items, needed), [17, 801]);
    }

    #[test]
    fn neighbours_that_go_only_together_go() {
        let even = |items: &[u32]| items.len() % 2 == 0 && items.contains(&3) && items.contains(&5);
        assert_eq!(shortest(&[1, 2, 3, 5, 6, 7], even), [3, 5]);
    }
}
