//! Loops over all combinations of several lists.

/// All pairs of two lists, in the order of two nested loops.
pub fn pairs<A: Clone, B>(
    first: impl IntoIterator<Item = A>,
    second: impl IntoIterator<Item = B> + Clone,
) -> impl Iterator<Item = (A, B)> {
    let with = move |a: A| second.clone().into_iter().map(move |b| (a.clone(), b));
    first.into_iter().flat_map(with)
}

/// All triples of three lists.
pub fn triples<A: Clone, B: Clone, C>(
    first: impl IntoIterator<Item = A>,
    second: impl IntoIterator<Item = B> + Clone,
    third: impl IntoIterator<Item = C> + Clone,
) -> impl Iterator<Item = (A, B, C)> {
    pairs(pairs(first, second), third).map(|((a, b), c)| (a, b, c))
}

/// Every string of up to two bytes, the shorter ones first.
pub fn up_to_two_bytes() -> impl Iterator<Item = Vec<u8>> + Clone {
    let one = (0..=255).map(|byte| vec![byte]);
    let two = (0..=u16::MAX).map(|number| number.to_be_bytes().to_vec());
    std::iter::once(Vec::new()).chain(one).chain(two)
}
