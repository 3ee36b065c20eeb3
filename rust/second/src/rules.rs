//! The rules for n shares (sections 2 and 5, and requests (iv), (v) and (vi)), at k = 32. The slices
//! lent to a rule have the lengths it asks for, and a rule gives nothing when the supply runs out
//! under it.

use crate::supply::Supply;

/// Section 2, splitting a value: "the next n−1 words are shares 1 to n−1, and share n is the
/// value XOR all of them".
pub(crate) fn split(n: usize, value: u32, supply: &mut Supply) -> Option<Vec<u32>> {
    let mut shares = Vec::new();
    let mut last = value;
    for _ in 1..n {
        let word = supply.draw()?;
        shares.push(word);
        last ^= word;
    }
    shares.push(last);
    Some(shares)
}

/// Section 2: Boolean shares have "x1 ⊕ … ⊕ xn = x".
pub(crate) fn open_xor(shares: &[u32]) -> u32 {
    let mut word = 0;
    for share in shares {
        word ^= share;
    }
    word
}

/// Section 2: arithmetic shares have "A1 + … + An = x modulo 2^k".
pub(crate) fn open_sum(shares: &[u32]) -> u32 {
    let mut word: u32 = 0;
    for share in shares {
        word = word.wrapping_add(*share);
    }
    word
}

/// XOR "by shares".
pub(crate) fn xor(x: &[u32], y: &[u32]) -> Vec<u32> {
    x.iter().zip(y).map(|(xi, yi)| xi ^ yi).collect()
}

/// The double modulo 2^k, "by shares".
fn double(x: &[u32]) -> Vec<u32> {
    x.iter().map(|xi| xi.wrapping_mul(2)).collect()
}

/// Request (v): "Refresh now draws one word for each pair i < j, in the AND's order, and XORs it
/// into both shares".
pub(crate) fn refresh(x: &[u32], supply: &mut Supply) -> Option<Vec<u32>> {
    let n = x.len();
    let mut y = x.to_vec();
    for i in 0..n {
        for j in i + 1..n {
            let s = supply.draw()?;
            y[i] ^= s;
            y[j] ^= s;
        }
    }
    Some(y)
}

/// Section 5's own refresh: "for i = 1 to n−1 draw s; yi = xi ⊕ s, and s is XORed into share n".
/// Request (v): "The old rule stays inside (iv) under its own name." Request (vi) takes it too.
pub(crate) fn refresh_with_last(x: &[u32], supply: &mut Supply) -> Option<Vec<u32>> {
    let n = x.len();
    let mut y = x.to_vec();
    for i in 1..n {
        let s = supply.draw()?;
        y[i - 1] = x[i - 1] ^ s;
        y[n - 1] ^= s;
    }
    Some(y)
}

/// Section 5, expand: "each xi in turn gives xi ⊕ s, s".
pub(crate) fn expand(x: &[u32], supply: &mut Supply) -> Option<Vec<u32>> {
    let mut y = Vec::new();
    for xi in x {
        let s = supply.draw()?;
        y.push(xi ^ s);
        y.push(s);
    }
    Some(y)
}

/// Section 5, AND: "pairs i < j in order (1,2), (1,3), …, (2,3), …; draw s for the pair; zi gets
/// s, and zj gets (s ⊕ (xi ∧ yj)) ⊕ (xj ∧ yi); each zi starts from xi ∧ yi".
pub(crate) fn and(x: &[u32], y: &[u32], supply: &mut Supply) -> Option<Vec<u32>> {
    let n = x.len();
    let mut z: Vec<u32> = x.iter().zip(y).map(|(xi, yi)| xi & yi).collect();
    for i in 0..n {
        for j in i + 1..n {
            let s = supply.draw()?;
            z[i] ^= s;
            z[j] ^= (s ^ (x[i] & y[j])) ^ (x[j] & y[i]);
        }
    }
    Some(z)
}

/// Section 5, addition: "w = AND(x, y); a = x ⊕ y by shares; u = 0 in all shares; k−1 times
/// u = 2(AND(u, a) ⊕ w), by shares; z = x ⊕ y ⊕ u".
pub(crate) fn add(x: &[u32], y: &[u32], supply: &mut Supply) -> Option<Vec<u32>> {
    let w = and(x, y, supply)?;
    let a = xor(x, y);
    let mut u = vec![0; x.len()];
    for _ in 0..31 {
        u = double(&xor(&and(&u, &a, supply)?, &w));
    }
    Some(xor(&xor(x, y), &u))
}

/// Section 5, arithmetic to Boolean: "one share stays. Otherwise convert the left half and expand
/// it, then the right half and expand it, then add." Request (vi): "floor(n/2) shares left and the
/// rest right".
pub(crate) fn a2b(a: &[u32], supply: &mut Supply) -> Option<Vec<u32>> {
    let n = a.len();
    if n == 1 {
        return Some(a.to_vec());
    }
    let (left_half, right_half) = a.split_at(n / 2);
    let left = a2b_half(n, left_half, supply)?;
    let right = a2b_half(n, right_half, supply)?;
    add(&left, &right, supply)
}

/// A half of n arithmetic shares, converted by the rule of its own count and brought to n shares: by
/// expanding when n is a power of two; otherwise request (vi) "appends zero shares to each result up
/// to n, and refreshes each by the old rule".
fn a2b_half(n: usize, half: &[u32], supply: &mut Supply) -> Option<Vec<u32>> {
    let mut converted = a2b(half, supply)?;
    if n.is_power_of_two() {
        return expand(&converted, supply);
    }
    converted.resize(n, 0);
    refresh_with_last(&converted, supply)
}

/// Section 5, Boolean to arithmetic: "draw A1 … A(n−1); convert −A1, …, −A(n−1), 0 to Boolean;
/// add to x (x is the first operand); refresh; An is the XOR of the result". The refresh is that of
/// request (v).
pub(crate) fn b2a(x: &[u32], supply: &mut Supply) -> Option<Vec<u32>> {
    let mut a = Vec::new();
    let mut negated = Vec::new();
    for _ in 1..x.len() {
        let word = supply.draw()?;
        a.push(word);
        negated.push(word.wrapping_neg());
    }
    negated.push(0);
    let converted = a2b(&negated, supply)?;
    let sum = add(x, &converted, supply)?;
    let refreshed = refresh(&sum, supply)?;
    a.push(open_xor(&refreshed));
    Some(a)
}

/// Section 4: "Ψ(r) = (x' ⊕ r) − r".
fn psi(x1: u32, r: u32) -> u32 {
    (x1 ^ r).wrapping_sub(r)
}

/// Request (iv): "XOR the last entry into the one before"; the last entry is dropped, so that the
/// list opens to the same word with one entry less.
fn fold_last(list: &[u32]) -> Vec<u32> {
    let last = list.len() - 1;
    let mut shorter = list[..last].to_vec();
    shorter[last - 1] ^= list[last];
    shorter
}

/// Request (iv), of n+1 shares: "b has n entries, the Ψ of share 1 at each later share, and share 1
/// is XORed into the first entry when n is even". So b opens to x minus the XOR of the later shares.
fn psi_entries(shares: &[u32]) -> Vec<u32> {
    let (share_1, later) = (shares[0], &shares[1..]);
    let mut b: Vec<u32> = later.iter().map(|share| psi(share_1, *share)).collect();
    if later.len() & 1 == 0 {
        b[0] ^= share_1;
    }
    b
}

/// Request (iv), the short conversion, for any n from 1: "convert the first list, then the second,
/// by the same rule at n−1; add the first n−2 places, then append the last of the first and the
/// last of the second". The first list is shares 2 to n+1, the second is b. Every refresh in it is by
/// the old rule (request (v)).
pub(crate) fn b2a_short(x: &[u32], supply: &mut Supply) -> Option<Vec<u32>> {
    let n = x.len();
    if n == 1 {
        return Some(x.to_vec());
    }
    let mut shares = x.to_vec();
    shares.push(0);
    let shares = refresh_with_last(&shares, supply)?;
    let b = psi_entries(&shares);
    let first = refresh_with_last(&shares[1..], supply)?;
    let second = refresh_with_last(&b, supply)?;
    let first = b2a_short(&fold_last(&first), supply)?;
    let second = b2a_short(&fold_last(&second), supply)?;
    let mut a = Vec::new();
    for i in 0..n - 2 {
        a.push(first[i].wrapping_add(second[i]));
    }
    a.push(first[n - 2]);
    a.push(second[n - 2]);
    Some(a)
}
