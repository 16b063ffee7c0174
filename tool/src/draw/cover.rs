//! A set of requests as a short list of products, for words: `reader or trainee, copy`
//! says two requests at once, and `any` all values of a field.

use crate::frame::Frame;
use crate::names::{Field, Names};
use crate::notation::value_words;

/// Disjoint products, each a mask for each field, that together hold exactly the given
/// requests. The largest product that fits is taken first, or the one that says `any` most
/// often, whichever comes to fewer products, or to fewer words.
pub fn cover(frame: &Frame, requests: &[usize]) -> Vec<Vec<u16>> {
    let grid = Grid::new(frame);
    let set = requests.iter().fold(0, |set, request| set | 1 << request);
    let by_size = greedy(&grid, set, |size, full| [size, full]);
    let by_any = greedy(&grid, set, |size, full| [full, size]);
    let length = |products: &[Vec<u16>]| {
        let named = products.iter().map(|product| named_values(frame, product)).sum::<usize>();
        (products.len(), named)
    };
    if length(&by_any) < length(&by_size) {
        by_any
    } else {
        by_size
    }
}

/// What decides between two products: their sizes and how many of their fields are full,
/// the more important number first.
type Merit = fn(usize, usize) -> [usize; 2];

/// Takes the best product within what is left, until nothing is.
fn greedy(grid: &Grid, mut left: u64, merit: Merit) -> Vec<Vec<u16>> {
    let mut products = Vec::new();
    while left != 0 {
        let product = best(grid, left, merit);
        left &= !grid.members(&product);
        products.push(product);
    }
    products
}

/// How many values a product names: none of a full field.
fn named_values(frame: &Frame, product: &[u16]) -> usize {
    let masks = product.iter().zip(&frame.counts);
    let partial = masks.filter(|(&mask, &count)| mask != full_mask(count));
    partial.map(|(mask, _)| mask.count_ones() as usize).sum()
}

/// A product in words, in the notation of the rules' text.
pub fn words(names: &Names, product: &[u16]) -> String {
    let full = |(mask, field): (&u16, &Field)| *mask == full_mask(field.values.len());
    if product.len() > 1 && product.iter().zip(&names.fields).all(full) {
        return "any request".to_string();
    }
    let parts = product.iter().zip(&names.fields).map(|(mask, field)| value_words(*mask, &field.values));
    parts.collect::<Vec<String>>().join(", ")
}

/// The mask of all values of a field that has so many.
fn full_mask(count: usize) -> u16 {
    u16::MAX >> (16 - count)
}

/// The requests that have each value of each field, as sets of bits.
struct Grid<'a> {
    frame: &'a Frame,
    having: Vec<Vec<u64>>,
}

impl Grid<'_> {
    fn new(frame: &Frame) -> Grid<'_> {
        let mut having: Vec<Vec<u64>> = frame.counts.iter().map(|&count| vec![0; count]).collect();
        for request in 0..frame.requests() {
            for (values, value) in having.iter_mut().zip(frame.values(request)) {
                values[value] |= 1 << request;
            }
        }
        Grid { frame, having }
    }

    /// The requests of a product.
    fn members(&self, product: &[u16]) -> u64 {
        let having = |(values, &mask): (&Vec<u64>, &u16)| {
            let chosen = values.iter().enumerate().filter(|(value, _)| mask >> value & 1 == 1);
            chosen.fold(0, |set, (_, members)| set | members)
        };
        self.having.iter().zip(product).map(having).fold(u64::MAX, |set, members| set & members)
    }
}

/// The best product within a set that is not empty; of several the one with the earliest
/// values.
fn best(grid: &Grid, set: u64, merit: Merit) -> Vec<u16> {
    // All masks of all fields but the widest are tried; that one's follows from them.
    let counts = &grid.frame.counts;
    let widest = (0..counts.len()).max_by_key(|&field| counts[field]).unwrap_or(0);
    let mut tried = vec![1; counts.len()];
    let mut best = None;
    loop {
        tried[widest] = full_mask(counts[widest]);
        let outside = grid.members(&tried) & !set;
        for (value, members) in grid.having[widest].iter().enumerate() {
            if members & outside != 0 {
                tried[widest] &= !(1 << value);
            }
        }
        if tried[widest] != 0 {
            best = best.max(Some((key(grid.frame, &tried, merit), tried.clone())));
        }
        if !advance(grid.frame, widest, &mut tried) {
            return best.map_or(tried, |(_, product)| product);
        }
    }
}

/// What is greater for the better product.
fn key(frame: &Frame, product: &[u16], merit: Merit) -> ([usize; 2], Vec<u16>) {
    let size = product.iter().map(|mask| mask.count_ones() as usize).product();
    let masks = product.iter().zip(&frame.counts);
    let full = masks.filter(|(&mask, &count)| mask == full_mask(count)).count();
    (merit(size, full), product.iter().map(|mask| mask.reverse_bits()).collect())
}

/// The next masks of all fields but one; false if there are no more.
fn advance(frame: &Frame, but: usize, masks: &mut [u16]) -> bool {
    for field in (0..masks.len()).rev().filter(|&field| field != but) {
        if masks[field] < full_mask(frame.counts[field]) {
            masks[field] += 1;
            return true;
        }
        masks[field] = 1;
    }
    false
}

#[cfg(test)]
mod tests {
    use super::*;

    /// Checks that the products are disjoint and hold exactly the set.
    fn check(frame: &Frame, requests: &[usize]) {
        let mut times = vec![0; frame.requests()];
        for product in cover(frame, requests) {
            assert_eq!(product.len(), frame.counts.len());
            for (request, times) in times.iter_mut().enumerate() {
                let values = frame.values(request);
                let mut masks = product.iter().zip(values);
                *times += usize::from(masks.all(|(mask, value)| mask >> value & 1 == 1));
            }
        }
        for (request, times) in times.into_iter().enumerate() {
            assert_eq!(times, usize::from(requests.contains(&request)));
        }
    }

    #[test]
    fn every_set_of_small_frames() {
        for counts in [vec![9], vec![3, 3], vec![2, 2, 2], vec![2, 1, 2, 2], vec![5, 2], vec![1]] {
            let frame = Frame { events: 0, counts };
            for set in 0..1_usize << frame.requests() {
                let members = (0..frame.requests()).filter(|request| set >> request & 1 == 1);
                check(&frame, &members.collect::<Vec<usize>>());
            }
        }
    }

    #[test]
    fn some_sets_of_the_largest_frames() {
        let mut seed = 1_u64;
        for counts in [vec![8, 8], vec![16, 4], vec![4, 4, 4], vec![2, 4, 2, 4], vec![1, 16, 1, 4]] {
            let frame = Frame { events: 3, counts };
            for _ in 0..40 {
                seed = seed.wrapping_mul(6_364_136_223_846_793_005).wrapping_add(1);
                let members = (0..64).filter(|request| (seed ^ seed << 29) >> request & 1 == 1);
                check(&frame, &members.collect::<Vec<usize>>());
            }
        }
    }

    #[test]
    fn said_as_in_the_rules() {
        let frame = Frame { events: 0, counts: vec![3, 3] };
        let names = Names::made_up(&frame, 0);
        let said = |requests: &[usize]| -> Vec<String> {
            cover(&frame, requests).iter().map(|product| words(&names, product)).collect()
        };
        assert_eq!(said(&[1, 2, 4, 5]), ["a0 or a1, b1 or b2"]);
        assert_eq!(said(&[0, 1, 2, 5]), ["a0, any", "a1, b2"]);
        assert_eq!(said(&(0..9).collect::<Vec<usize>>()), ["any request"]);
        assert!(said(&[]).is_empty());
        let single = Names::made_up(&Frame { events: 0, counts: vec![2] }, 0);
        assert_eq!(words(&single, &[3]), "any");
    }
}
