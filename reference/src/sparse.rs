//! Rows of integers, most of them 0.

/// Ascending by number, without factors that are 0.
pub type Sparse = Vec<(usize, i128)>;

/// Factors of equal numbers added up.
pub fn collected(mut factors: Sparse) -> Sparse {
    factors.sort_unstable();
    factors.dedup_by(|next, kept| {
        let same = next.0 == kept.0;
        kept.1 += if same { next.1 } else { 0 };
        same
    });
    factors.retain(|&(_, factor)| factor != 0);
    factors
}

/// 0 for a number that does not stand there.
pub fn factor_of(row: &Sparse, number: usize) -> i128 {
    let place = row.binary_search_by_key(&number, |&(number, _)| number);
    place.map_or(0, |place| row[place].1)
}

/// So many times the one and so many times the other. `None` if a factor, or its negative, is too
/// large.
pub fn added(left: &Sparse, by_left: i128, right: &Sparse, by_right: i128) -> Option<Sparse> {
    let mut sum = Vec::with_capacity(left.len() + right.len());
    let (mut left, mut right) = (left.iter().peekable(), right.iter().peekable());
    loop {
        let number = match (left.peek(), right.peek()) {
            (Some((on_left, _)), Some((on_right, _))) => *on_left.min(on_right),
            (Some((number, _)), None) | (None, Some((number, _))) => *number,
            (None, None) => return Some(sum),
        };
        let here = |&&(other, _): &&(usize, i128)| other == number;
        let on_left = left.next_if(here).map_or(0, |&(_, factor)| factor);
        let on_right = right.next_if(here).map_or(0, |&(_, factor)| factor);
        let left_part = on_left.checked_mul(by_left)?;
        let factor = left_part.checked_add(on_right.checked_mul(by_right)?)?;
        if factor.checked_abs()? != 0 {
            sum.push((number, factor));
        }
    }
}

/// Divides all rows by the greatest divisor of all their factors.
pub fn divide_by_common(rows: &mut [&mut Sparse]) {
    let mut common = 0;
    for &(_, factor) in rows.iter().flat_map(|row| row.iter()) {
        common = common_divisor(common, factor);
        if common == 1 {
            return;
        }
    }
    for (_, factor) in rows.iter_mut().flat_map(|row| row.iter_mut()) {
        *factor /= common;
    }
}

pub fn negated(row: &Sparse) -> Sparse {
    row.iter()
        .map(|&(number, factor)| (number, -factor))
        .collect()
}

/// The greatest; never negative.
fn common_divisor(left: i128, right: i128) -> i128 {
    let (mut left, mut right) = (left, right);
    while right != 0 {
        (left, right) = (right, left % right);
    }
    left.abs()
}
