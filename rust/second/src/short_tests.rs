//! Tests of the short conversion (request (iv)): the counts, the steps by hand and by place, the sums
//! and the refusals. Request (vi) leaves the call its four share counts; for others the rule is run.

use crate::supply::Supply;
use crate::tests::{done, random_words, refused, sum_of, xor_of, BEFORE, COUNTS, WRONG_COUNTS};
use crate::*;

/// The share counts that the call does not refuse.
const SHORT_COUNTS: [usize; 4] = [1, 2, 4, 8];

/// V(n) in closed form.
fn words_for(n: usize) -> usize {
    (7 << (n - 1)) - 3 * n - 4
}

/// The rule on words of which it draws every one.
fn convert(x: &[u32], words: &[u32]) -> Vec<u32> {
    let mut supply = Supply::new(words);
    let a = rules::b2a_short(x, &mut supply).unwrap();
    assert_eq!(supply.drawn(), words.len() as u64);
    a
}

/// The call on exactly the words that its query names.
fn b2a_short_done(n: usize, x: &[u32], seed: u64) -> Vec<u32> {
    let words = random_words(seed, b2a_short_words(n).drawn);
    let mut a = vec![BEFORE; n];
    let answer = b2a_short(n, x, &mut a, &words);
    assert_eq!(answer.number, 0);
    assert_eq!(answer, b2a_short_words(n));
    a
}

/// A list refreshed by the old rule, and its last entry XORed into the one before. The last word went
/// into both of these, and so is gone; every other word is in its own entry and in the last.
fn refreshed_and_folded(list: &[u32], words: &[u32]) -> Vec<u32> {
    let kept = list.len() - 2;
    let mut shorter: Vec<u32> = (0..kept).map(|i| list[i] ^ words[i]).collect();
    shorter.push(list[kept] ^ list[kept + 1] ^ xor_of(&words[..kept]));
    shorter
}

/// The request's steps with the words named by their places: n, n−1 and n−1 for the refreshes, then
/// V(n−1) for the first list and V(n−1) for the second.
fn by_place(x: &[u32], words: &[u32]) -> Vec<u32> {
    let n = x.len();
    if n == 1 {
        return x.to_vec();
    }
    let mut shares: Vec<u32> = (0..n).map(|i| x[i] ^ words[i]).collect();
    shares.push(xor_of(&words[..n]));
    let psi = |i: usize| (shares[0] ^ shares[i]).wrapping_sub(shares[i]);
    let mut b: Vec<u32> = (1..=n).map(psi).collect();
    if n & 1 == 0 {
        b[0] ^= shares[0];
    }
    let first = refreshed_and_folded(&shares[1..], &words[n..2 * n - 1]);
    let second = refreshed_and_folded(&b, &words[2 * n - 1..3 * n - 2]);
    let (left, right) = words[3 * n - 2..].split_at(words_for(n - 1));
    let mut a = by_place(&first, left);
    let mut rest = by_place(&second, right);
    a.extend(rest.pop());
    for (sum, term) in a.iter_mut().zip(rest) {
        *sum = sum.wrapping_add(term);
    }
    a
}

#[test]
fn counts() {
    let queries = SHORT_COUNTS.map(b2a_short_words);
    assert_eq!(queries, [done(0), done(4), done(40), done(868)]);
    let all: Vec<usize> = (1..=8).map(words_for).collect();
    assert_eq!(all, [0, 4, 15, 40, 93, 202, 423, 868]);
    for n in 2..=8 {
        assert_eq!(words_for(n), 3 * n - 2 + 2 * words_for(n - 1));
    }
}

#[test]
fn two_shares_by_hand() {
    // A zero share appended: 13, 36, 00. Refreshed with 01, 02: 12, 34, 03.
    // b1 = (12 ⊕ 34) − 34 = 26 − 34 = …f2, and as n is even, …f2 ⊕ 12 = …e0.
    // b2 = (12 ⊕ 03) − 03 = 11 − 03 = 0e.
    // Shares 2 and 3 refreshed with 40: 74, 43. b refreshed with 80: …60, 8e.
    // The last into the one before: 74 ⊕ 43 = 37 and …60 ⊕ 8e = …ee.
    // One share stays in both conversions, no places are added, and the two are appended.
    let mut a = [BEFORE; 2];
    let answer = b2a_short(2, &[0x13, 0x36], &mut a, &[0x01, 0x02, 0x40, 0x80]);
    assert_eq!(answer, done(4));
    assert_eq!(a, [0x37, 0xffffffee]);
    assert_eq!(sum_of(&a), 0x13 ^ 0x36);
}

#[test]
fn three_shares_by_hand() {
    // A zero share appended and refreshed with 10, 20, 40: 12, 22, 44, 70.
    // b = 30 − 22, 56 − 44, 62 − 70 = 0e, 12, …f2; n is odd, so share 1 goes into none of them.
    // Shares 2 to 4 refreshed with 01, 02: 23, 46, 73; folded: 23, 35.
    // b refreshed with 04, 08: 0a, 1a, …fe; folded: 0a, …e4.
    // Two shares give share 2 ⊕ their first word, and what is then missing to the opened word:
    // 35 ⊕ 100 = 135 and 16 − 135 = …fee1; …e4 ⊕ 200 = …fde4 and …ee − …fde4 = 20a.
    // One place is added: 135 + …fde4 = …ff19. The last of the first and of the second follow.
    let mut words = vec![0x10, 0x20, 0x40, 0x01, 0x02, 0x04, 0x08];
    words.extend([0x100, 0x5a, 0x6b, 0x7c]);
    words.extend([0x200, 0x8d, 0x9e, 0xaf]);
    let a = convert(&[0x02, 0x02, 0x04], &words);
    assert_eq!(a, [0xffffff19, 0xfffffee1, 0x20a]);
    assert_eq!(sum_of(&a), 0x04);
}

#[test]
fn one_share_stays() {
    for word in [0, 1, 0x80000000, 0xffffffff] {
        let mut a = [BEFORE];
        assert_eq!(b2a_short(1, &[word], &mut a, &[]), done(0));
        assert_eq!(a, [word]);
    }
}

#[test]
fn the_sum_is_the_secret() {
    for n in 1..=8 {
        for seed in 1..20 {
            let fill = |seed, count: usize| {
                let random = random_words(seed, count as u64);
                [random, vec![0; count], vec![u32::MAX; count]]
            };
            for x in fill(seed, n) {
                for words in fill(seed + 100, words_for(n)) {
                    assert_eq!(sum_of(&convert(&x, &words)), xor_of(&x), "n {n}");
                }
            }
        }
    }
}

#[test]
fn words_are_drawn_once_each_from_the_front() {
    for n in 1..=8 {
        for seed in 1..20 {
            let drawn = words_for(n);
            let x = random_words(seed, n as u64);
            let words = random_words(seed + 100, drawn as u64 + 5);
            let a = convert(&x, &words[..drawn]);
            assert_eq!(a, by_place(&x, &words[..drawn]), "n {n}");
            // Words after those drawn have no influence, and one word less is not enough.
            let mut supply = Supply::new(&words);
            assert_eq!(rules::b2a_short(&x, &mut supply), Some(a));
            assert_eq!(supply.drawn(), drawn as u64);
            if let Some(less) = drawn.checked_sub(1) {
                let mut supply = Supply::new(&words[..less]);
                assert_eq!(rules::b2a_short(&x, &mut supply), None);
            }
        }
    }
}

#[test]
fn the_call_is_the_rule() {
    for n in SHORT_COUNTS {
        let drawn = words_for(n);
        let x = random_words(1, n as u64);
        let words = random_words(2, drawn as u64 + 5);
        let expected = convert(&x, &words[..drawn]);
        assert_eq!(b2a_short_done(n, &x, 2), expected);
        let mut a = vec![BEFORE; n];
        assert_eq!(b2a_short(n, &x, &mut a, &words), done(drawn as u64));
        assert_eq!(a, expected);
    }
}

#[test]
fn both_ways_open_to_the_same_secret() {
    for n in SHORT_COUNTS {
        for seed in 1..20 {
            let x = random_words(seed, n as u64);
            let short = b2a_short_done(n, &x, seed + 100);
            let words = random_words(seed + 200, b2a_words(n).drawn);
            let mut long = vec![BEFORE; n];
            assert_eq!(b2a(n, &x, &mut long, &words), b2a_words(n));
            assert_eq!(open_sum(n, &short), open_sum(n, &long));
            assert_eq!(open_sum(n, &short), open_xor(n, &x));
        }
    }
}

/// A call on slices of these lengths is refused with this number and leaves its output.
fn is_refused(number: u32, n: usize, input: usize, output: usize, words: &[u32]) {
    let x = random_words(1, input as u64);
    let mut a = vec![BEFORE; output];
    assert_eq!(b2a_short(n, &x, &mut a, words), refused(number));
    assert_eq!(a, vec![BEFORE; output]);
}

#[test]
fn share_counts_are_refused_first() {
    let enough = random_words(1, 1000);
    for n in COUNTS.into_iter().chain(WRONG_COUNTS) {
        if !SHORT_COUNTS.contains(&n) {
            assert_eq!(b2a_short_words(n), refused(1));
            for (input, output) in [(0, 0), (1, 2), (2, 2), (8, 8)] {
                is_refused(1, n, input, output, &[]);
                is_refused(1, n, input, output, &enough);
            }
        }
    }
}

#[test]
fn counts_of_the_other_calls_stay_refused_here() {
    for n in [3, 5, 6, 7, 9, 10, 11, 12, 13, 14, 15, 16] {
        assert_eq!(b2a_words(n).number, 0);
        assert_eq!(b2a_short_words(n), refused(1));
        is_refused(1, n, n, n, &[]);
        is_refused(1, n, n, n, &random_words(1, words_for(n) as u64));
    }
}

#[test]
fn lengths_and_missing_words_are_refused_in_order() {
    let enough = random_words(1, 1000);
    for n in SHORT_COUNTS {
        for other in [0, n - 1, n + 1, 2 * n, 16] {
            if other != n {
                for words in [&[], &enough[..]] {
                    is_refused(2, n, other, other, words);
                    is_refused(2, n, other, n, words);
                    is_refused(3, n, n, other, words);
                }
            }
        }
        for less in 0..words_for(n) {
            is_refused(5, n, n, n, &enough[..less]);
        }
    }
}
