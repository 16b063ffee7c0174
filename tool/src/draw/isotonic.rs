//! Places in a row, as near to where each is wished as distances between neighbours allow.

/// The places with the least sum of weighted squares from the wishes, each at least its
/// distance after the one before: neighbours that would come too near are joined (the
/// pool of adjacent violators). Wishes come with weights above zero.
pub fn nearest(wishes: &[(f64, f64)], distances: &[f64]) -> Vec<f64> {
    let shifts = shifts(distances);
    // Joined neighbours: the sum of weighted wishes, the weight, and how many they are.
    let mut groups: Vec<(f64, f64, usize)> = Vec::new();
    for (&(wish, weight), shift) in wishes.iter().zip(&shifts) {
        let mut group = ((wish - shift) * weight, weight, 1);
        while let Some(last) = groups.last().filter(|last| last.0 / last.1 > group.0 / group.1) {
            group = (group.0 + last.0, group.1 + last.1, group.2 + last.2);
            groups.pop();
        }
        groups.push(group);
    }
    let begins = groups.iter().flat_map(|group| vec![group.0 / group.1; group.2]);
    begins.zip(shifts).map(|(begin, shift)| begin + shift).collect()
}

/// The same within bounds, all distances and weights alike. There must be room for all.
pub fn nearest_within(wishes: &[f64], distance: f64, low: f64, high: f64) -> Vec<f64> {
    let weighted: Vec<(f64, f64)> = wishes.iter().map(|&wish| (wish, 1.0)).collect();
    let distances = vec![distance; wishes.len().saturating_sub(1)];
    let last = distance * distances.len() as f64;
    let places = nearest(&weighted, &distances);
    let bounded = places.iter().zip(shifts(&distances)).map(|(place, shift)| {
        let begin = place - shift;
        begin.min(high - last).max(low) + shift
    });
    bounded.collect()
}

/// How far each is after the first, if all are as near as allowed.
fn shifts(distances: &[f64]) -> Vec<f64> {
    let mut shift = 0.0;
    let after = distances.iter().map(|distance| {
        shift += distance;
        shift
    });
    std::iter::once(0.0).chain(after).collect()
}

#[cfg(test)]
mod tests {
    use super::*;

    #[test]
    fn far_wishes_are_met_and_near_ones_shared() {
        let wishes = [(0.0, 1.0), (100.0, 1.0), (100.0, 3.0)];
        assert_eq!(nearest(&wishes, &[10.0, 8.0]), [0.0, 94.0, 102.0]);
        assert!(nearest(&[], &[]).is_empty());
    }

    #[test]
    fn bounds_hold() {
        assert_eq!(nearest_within(&[-50.0, 0.0, 90.0], 5.0, -10.0, 10.0), [-10.0, 0.0, 10.0]);
        assert_eq!(nearest_within(&[90.0, 95.0], 5.0, -10.0, 10.0), [5.0, 10.0]);
    }
}
