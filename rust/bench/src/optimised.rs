//! The same steps in optimised Rust: arrays of N shares, so that the compiler knows every length.

/// The words lent, and the place of the next unused one.
pub struct Supply<'a> {
    pub words: &'a [u32],
    pub place: usize,
}

impl Supply<'_> {
    /// The next words, as many as asked for.
    #[inline(always)]
    fn draw(&mut self, count: usize) -> &[u32] {
        let drawn = &self.words[self.place..self.place + count];
        self.place += count;
        drawn
    }
}

#[inline(always)]
fn each<const N: usize>(
    x: &[u32; N],
    y: &[u32; N],
    operation: impl Fn(u32, u32) -> u32,
) -> [u32; N] {
    std::array::from_fn(|i| operation(x[i], y[i]))
}

#[inline(always)]
fn xor<const N: usize>(x: &[u32; N], y: &[u32; N]) -> [u32; N] {
    each(x, y, |a, b| a ^ b)
}

#[inline(always)]
fn public<const N: usize>(value: u32) -> [u32; N] {
    std::array::from_fn(|i| if i == 0 { value } else { 0 })
}

#[inline(always)]
fn expand<const N: usize, const TWICE: usize>(x: [u32; N], supply: &mut Supply) -> [u32; TWICE] {
    let words = supply.draw(N);
    std::array::from_fn(|i| match i % 2 {
        0 => x[i / 2] ^ words[i / 2],
        _ => words[i / 2],
    })
}

/// Each pair of shares by a word of its own.
#[inline(always)]
pub fn refresh<const N: usize>(shares: &[u32; N], supply: &mut Supply) -> [u32; N] {
    let words = supply.draw(pairs(N));
    let mut fresh = *shares;
    let mut place = 0;
    for i in 0..N {
        for j in i + 1..N {
            fresh[i] ^= words[place];
            fresh[j] ^= words[place];
            place += 1;
        }
    }
    fresh
}

/// Each share but the last with the last, by the first N - 1 of these words.
#[inline(always)]
fn refresh_last<const N: usize>(mut shares: [u32; N], words: &[u32]) -> [u32; N] {
    for (i, word) in words[..N - 1].iter().enumerate() {
        shares[i] ^= word;
        shares[N - 1] ^= word;
    }
    shares
}

/// How many words an AND or a refresh draws: one for each pair of shares.
const fn pairs(shares: usize) -> usize {
    shares * (shares - 1) / 2
}

#[inline(always)]
fn and<const N: usize>(x: &[u32; N], y: &[u32; N], words: &[u32]) -> [u32; N] {
    let mut z = each(x, y, |a, b| a & b);
    let mut place = 0;
    for i in 0..N {
        for j in i + 1..N {
            let s = words[place];
            place += 1;
            z[i] ^= s;
            z[j] ^= (s ^ (x[i] & y[j])) ^ (x[j] & y[i]);
        }
    }
    z
}

/// An addition takes its words at once, so that no round tests a bound. With its first round apart it would be faster,
/// and not the same steps: the compiler then adds shares up before it multiplies them (docs/SPEED.md).
pub fn add<const N: usize>(x: &[u32; N], y: &[u32; N], supply: &mut Supply) -> [u32; N] {
    let words = supply.draw(32 * pairs(N));
    let w = and(x, y, words);
    let a = xor(x, y);
    let mut u = [0; N];
    for round in 1..32 {
        let carried = and(&u, &a, &words[round * pairs(N)..]);
        u = each(&carried, &w, |v, w| (v ^ w) << 1);
    }
    xor(&a, &u)
}

/// Both conversions at one share count. Halving a count is nothing that array lengths can say, so
/// each count names its half.
pub trait Convert<const N: usize> {
    fn a2b(a: &[u32; N], supply: &mut Supply) -> [u32; N];

    fn b2a(x: &[u32; N], supply: &mut Supply) -> [u32; N] {
        let mut a = [0; N];
        a[..N - 1].copy_from_slice(supply.draw(N - 1));
        let converted = Self::a2b(&a.map(u32::wrapping_neg), supply);
        let sum = add(x, &converted, supply);
        let sum = refresh(&sum, supply);
        a[N - 1] = sum.iter().fold(0, |opened, share| opened ^ share);
        a
    }
}

/// The steps of the archive on arrays.
pub struct Optimised;

impl Convert<1> for Optimised {
    fn a2b(a: &[u32; 1], _: &mut Supply) -> [u32; 1] {
        *a
    }
}

macro_rules! convert_by_halves {
    ($($count:literal of $half:literal),*) => {$(
        impl Convert<$count> for Optimised {
            fn a2b(a: &[u32; $count], supply: &mut Supply) -> [u32; $count] {
                let left = Self::a2b(&std::array::from_fn::<_, $half, _>(|i| a[i]), supply);
                let left = expand(left, supply);
                let right = Self::a2b(&std::array::from_fn::<_, $half, _>(|i| a[$half + i]), supply);
                let right = expand(right, supply);
                add(&left, &right, supply)
            }
        }
    )*};
}

convert_by_halves!(2 of 1, 4 of 2, 8 of 4, 16 of 8);

/// Three is no power of two: zero shares are appended to each part, and it is refreshed.
impl Convert<3> for Optimised {
    fn a2b(a: &[u32; 3], supply: &mut Supply) -> [u32; 3] {
        let left = refresh_last(entries(&[a[0]], 0), supply.draw(2));
        let right: [u32; 2] = Self::a2b(&[a[1], a[2]], supply);
        let right = refresh_last(entries(&right, 0), supply.draw(2));
        add(&left, &right, supply)
    }
}

/// The short conversion from Boolean to arithmetic at one share count. It takes its words at once, as an addition does.
pub trait ConvertShort<const N: usize> {
    /// How many words it draws.
    const WORDS: usize;

    fn by_words(x: &[u32; N], words: &[u32]) -> [u32; N];

    fn b2a_short(x: &[u32; N], supply: &mut Supply) -> [u32; N] {
        Self::by_words(x, supply.draw(Self::WORDS))
    }
}

/// Entries of a list from this place on, as many as asked for; after its end they are 0.
#[inline(always)]
fn entries<const N: usize, const TAKEN: usize>(list: &[u32; N], first: usize) -> [u32; TAKEN] {
    std::array::from_fn(|i| list.get(first + i).copied().unwrap_or(0))
}

/// A list with its last entry put into the one before.
#[inline(always)]
fn folded<const N: usize, const LESS: usize>(list: &[u32; N]) -> [u32; LESS] {
    let mut shorter = entries(list, 0);
    shorter[LESS - 1] ^= list[N - 1];
    shorter
}

/// The short conversion by two at a share less. Of the words that refresh a list the last goes into both entries that
/// are put together after it, and the compiler leaves it out.
#[inline(always)]
fn convert_short<const LESS: usize, const N: usize, const MORE: usize>(
    x: &[u32; N],
    words: &[u32],
) -> [u32; N]
where
    Optimised: ConvertShort<LESS>,
{
    let shares: [u32; MORE] = refresh_last(entries(x, 0), words);
    let later: [u32; N] = entries(&shares, 1);
    let mut b = later.map(|share| (shares[0] ^ share).wrapping_sub(share));
    if N & 1 == 0 {
        b[0] ^= shares[0];
    }
    let first = folded(&refresh_last(later, &words[N..]));
    let second = folded(&refresh_last(b, &words[N + LESS..]));
    let (left, right) = words[N + 2 * LESS..].split_at(Optimised::WORDS);
    let first: [u32; LESS] = Optimised::by_words(&first, left);
    let second: [u32; LESS] = Optimised::by_words(&second, right);
    let mut a = entries(&each(&first, &second, u32::wrapping_add), 0);
    (a[LESS - 1], a[LESS]) = (first[LESS - 1], second[LESS - 1]);
    a
}

impl ConvertShort<1> for Optimised {
    const WORDS: usize = 0;

    fn by_words(x: &[u32; 1], _: &[u32]) -> [u32; 1] {
        *x
    }
}

/// One less and one more are nothing that array lengths can say either, so each count names both.
macro_rules! convert_by_one_less {
    ($($count:literal between $less:literal and $more:literal),*) => {$(
        impl ConvertShort<$count> for Optimised {
            const WORDS: usize = $count + 2 * $less + 2 * <Self as ConvertShort<$less>>::WORDS;

            #[inline(always)]
            fn by_words(x: &[u32; $count], words: &[u32]) -> [u32; $count] {
                convert_short::<$less, $count, $more>(x, words)
            }
        }
    )*};
}

convert_by_one_less!(2 between 1 and 3, 3 between 2 and 4, 4 between 3 and 5, 5 between 4 and 6);
convert_by_one_less!(6 between 5 and 7, 7 between 6 and 8, 8 between 7 and 9);

/// A word in N shares.
type Shared<const N: usize> = [u32; N];

/// A hash whose chain has so many words.
pub trait Hash<const WORDS: usize> {
    const START: [u32; WORDS];

    fn compress<const N: usize>(
        chain: &[Shared<N>; WORDS],
        block: &[Shared<N>; 16],
        supply: &mut Supply,
    ) -> [Shared<N>; WORDS];
}

pub struct Sha1;
pub struct Sha256;

#[inline(always)]
fn choose<const N: usize>([x, y, z]: [&Shared<N>; 3], supply: &mut Supply) -> Shared<N> {
    xor(z, &and(x, &xor(y, z), supply.draw(pairs(N))))
}

#[inline(always)]
fn majority<const N: usize>([x, y, z]: [&Shared<N>; 3], supply: &mut Supply) -> Shared<N> {
    xor(z, &and(&xor(x, z), &xor(y, z), supply.draw(pairs(N))))
}

fn schedule<const N: usize>(block: &[Shared<N>; 16]) -> [Shared<N>; 80] {
    let mut w = [[0; N]; 80];
    w[..16].copy_from_slice(block);
    for t in 16..80 {
        let sum = xor(&xor(&w[t - 3], &w[t - 8]), &xor(&w[t - 14], &w[t - 16]));
        w[t] = sum.map(|share| share.rotate_left(1));
    }
    w
}

/// The function of round t of SHA-1 on b, c and d, and the constant.
#[inline(always)]
fn function<const N: usize>(
    t: usize,
    [b, c, d]: [&Shared<N>; 3],
    supply: &mut Supply,
) -> (Shared<N>, u32) {
    match t / 20 {
        0 => (choose([b, c, d], supply), 0x5a827999),
        1 => (xor(&xor(b, c), d), 0x6ed9eba1),
        2 => (majority([b, c, d], supply), 0x8f1bbcdc),
        _ => (xor(&xor(b, c), d), 0xca62c1d6),
    }
}

impl Hash<5> for Sha1 {
    const START: [u32; 5] = [0x67452301, 0xefcdab89, 0x98badcfe, 0x10325476, 0xc3d2e1f0];

    fn compress<const N: usize>(
        chain: &[Shared<N>; 5],
        block: &[Shared<N>; 16],
        supply: &mut Supply,
    ) -> [Shared<N>; 5] {
        let [mut a, mut b, mut c, mut d, mut e] = *chain;
        for (t, w) in schedule(block).iter().enumerate() {
            let (f, k) = function(t, [&b, &c, &d], supply);
            let sum = add(&a.map(|share| share.rotate_left(5)), &f, supply);
            let sum = add(&sum, &e, supply);
            let sum = add(&sum, &public(k), supply);
            let sum = add(&sum, w, supply);
            (e, d, c, b, a) = (d, c, b.map(|share| share.rotate_left(30)), a, sum);
        }
        let rounds = [a, b, c, d, e];
        std::array::from_fn(|i| add(&chain[i], &rounds[i], supply))
    }
}

/// The constants of SHA-256's rounds.
#[rustfmt::skip]
const ROUNDS: [u32; 64] = [
    0x428a2f98, 0x71374491, 0xb5c0fbcf, 0xe9b5dba5, 0x3956c25b, 0x59f111f1, 0x923f82a4, 0xab1c5ed5,
    0xd807aa98, 0x12835b01, 0x243185be, 0x550c7dc3, 0x72be5d74, 0x80deb1fe, 0x9bdc06a7, 0xc19bf174,
    0xe49b69c1, 0xefbe4786, 0x0fc19dc6, 0x240ca1cc, 0x2de92c6f, 0x4a7484aa, 0x5cb0a9dc, 0x76f988da,
    0x983e5152, 0xa831c66d, 0xb00327c8, 0xbf597fc7, 0xc6e00bf3, 0xd5a79147, 0x06ca6351, 0x14292967,
    0x27b70a85, 0x2e1b2138, 0x4d2c6dfc, 0x53380d13, 0x650a7354, 0x766a0abb, 0x81c2c92e, 0x92722c85,
    0xa2bfe8a1, 0xa81a664b, 0xc24b8b70, 0xc76c51a3, 0xd192e819, 0xd6990624, 0xf40e3585, 0x106aa070,
    0x19a4c116, 0x1e376c08, 0x2748774c, 0x34b0bcb5, 0x391c0cb3, 0x4ed8aa4a, 0x5b9cca4f, 0x682e6ff3,
    0x748f82ee, 0x78a5636f, 0x84c87814, 0x8cc70208, 0x90befffa, 0xa4506ceb, 0xbef9a3f7, 0xc67178f2,
];

/// Σ of SHA-256: three rotations to the right.
#[inline(always)]
fn rotations<const N: usize>(x: &Shared<N>, by: [u32; 3]) -> Shared<N> {
    x.map(|share| share.rotate_right(by[0]) ^ share.rotate_right(by[1]) ^ share.rotate_right(by[2]))
}

/// σ of SHA-256: two rotations to the right, and a shift.
#[inline(always)]
fn shifted<const N: usize>(x: &Shared<N>, by: [u32; 3]) -> Shared<N> {
    x.map(|share| share.rotate_right(by[0]) ^ share.rotate_right(by[1]) ^ (share >> by[2]))
}

fn summed_schedule<const N: usize>(
    block: &[Shared<N>; 16],
    supply: &mut Supply,
) -> [Shared<N>; 64] {
    let mut w = [[0; N]; 64];
    w[..16].copy_from_slice(block);
    for t in 16..64 {
        let sum = add(&shifted(&w[t - 2], [17, 19, 10]), &w[t - 7], supply);
        let sum = add(&sum, &shifted(&w[t - 15], [7, 18, 3]), supply);
        w[t] = add(&sum, &w[t - 16], supply);
    }
    w
}

impl Hash<8> for Sha256 {
    const START: [u32; 8] = [
        0x6a09e667, 0xbb67ae85, 0x3c6ef372, 0xa54ff53a, 0x510e527f, 0x9b05688c, 0x1f83d9ab,
        0x5be0cd19,
    ];

    fn compress<const N: usize>(
        chain: &[Shared<N>; 8],
        block: &[Shared<N>; 16],
        supply: &mut Supply,
    ) -> [Shared<N>; 8] {
        let w = summed_schedule(block, supply);
        let [mut a, mut b, mut c, mut d, mut e, mut f, mut g, mut h] = *chain;
        for (w, k) in w.iter().zip(ROUNDS) {
            let chosen = choose([&e, &f, &g], supply);
            let most = majority([&a, &b, &c], supply);
            let sum = add(&h, &rotations(&e, [6, 11, 25]), supply);
            let sum = add(&sum, &chosen, supply);
            let sum = add(&sum, &public(k), supply);
            let sum = add(&sum, w, supply);
            let other = add(&rotations(&a, [2, 13, 22]), &most, supply);
            (h, g, f, e) = (g, f, e, add(&d, &sum, supply));
            (d, c, b, a) = (c, b, a, add(&sum, &other, supply));
        }
        let rounds = [a, b, c, d, e, f, g, h];
        std::array::from_fn(|i| add(&chain[i], &rounds[i], supply))
    }
}

fn split<const N: usize>(value: u32, supply: &mut Supply) -> Shared<N> {
    let mut shares = [value; N];
    shares[..N - 1].copy_from_slice(supply.draw(N - 1));
    shares[N - 1] = shares.iter().fold(0, |x, share| x ^ share);
    shares
}

#[inline(always)]
fn word(bytes: &[u8], i: usize) -> u32 {
    u32::from_be_bytes(std::array::from_fn(|byte| bytes[4 * i + byte]))
}

/// These bytes with their padding, which counts so many bytes before them.
fn padded(bytes: &[u8], before: usize) -> Vec<u8> {
    let mut padded = bytes.to_vec();
    padded.push(0x80);
    padded.resize((bytes.len() + 8) / 64 * 64 + 56, 0);
    padded.extend((8 * (before + bytes.len()) as u64).to_be_bytes());
    padded
}

/// The key block of a key: its words split; of one over a block their digest.
pub fn split_key<H: Hash<WORDS>, const WORDS: usize, const N: usize>(
    key: &[u8],
    supply: &mut Supply,
) -> [Shared<N>; 16] {
    if key.len() > 64 {
        return long_key::<H, WORDS, N>(key, supply);
    }
    let mut block = [0; 64];
    block[..key.len()].copy_from_slice(key);
    std::array::from_fn(|i| split(word(&block, i), supply))
}

/// All words are split before the first is hashed. Padding goes into their first shares.
fn long_key<H: Hash<WORDS>, const WORDS: usize, const N: usize>(
    key: &[u8],
    supply: &mut Supply,
) -> [Shared<N>; 16] {
    let padding = padded(&vec![0; key.len()], 0);
    let mut filled = key.to_vec();
    filled.resize(key.len().next_multiple_of(4), 0);
    let words = (0..filled.len() / 4).map(|i| split(word(&filled, i), supply));
    let mut words: Vec<Shared<N>> = words.collect();
    words.resize(padding.len() / 4, [0; N]);
    for (i, shares) in words.iter_mut().enumerate() {
        shares[0] ^= word(&padding, i);
    }
    let mut chain = H::START.map(public);
    for block in words.chunks_exact(16) {
        chain = H::compress(&chain, block.try_into().expect("a block"), supply);
    }
    let mut block = [[0; N]; 16];
    block[..WORDS].copy_from_slice(&chain);
    block
}

fn keyed<H: Hash<WORDS>, const WORDS: usize, const N: usize>(
    key: &[Shared<N>; 16],
    pad: u32,
    supply: &mut Supply,
) -> [Shared<N>; WORDS] {
    H::compress(
        &H::START.map(public),
        &key.map(|word| xor(&word, &public(pad))),
        supply,
    )
}

/// The tag of a message, whose padding is put into one buffer first.
pub fn hmac<H: Hash<WORDS>, const WORDS: usize, const N: usize>(
    key: &[Shared<N>; 16],
    message: &[u8],
    supply: &mut Supply,
) -> [[u8; 4]; WORDS] {
    let mut inner = keyed::<H, WORDS, N>(key, 0x36363636, supply);
    for block in padded(message, 64).chunks_exact(64) {
        inner = H::compress(
            &inner,
            &std::array::from_fn(|i| public(word(block, i))),
            supply,
        );
    }
    let outer = keyed::<H, WORDS, N>(key, 0x5c5c5c5c, supply);
    let mut digest = [[0; N]; 16];
    digest[..WORDS].copy_from_slice(&inner);
    digest[WORDS] = public(0x80000000);
    digest[15] = public(8 * (64 + 4 * WORDS as u32));
    let opened = H::compress(&outer, &digest, supply);
    opened.map(|word| word.iter().fold(0, |x, share| x ^ share).to_be_bytes())
}
