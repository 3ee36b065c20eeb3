//! Slices lent to a call, each with guard elements on both sides, and all that a call can be lent.

use crate::hashes::Hash;
use crate::random::Random;
use flamivorse::SHA256_CHAIN_WORDS;
use std::fmt;

/// How many guard elements stand on each side.
const GUARD: usize = 8;

/// How many bytes the tail of a state has.
const TAIL: usize = 64;

/// A slice inside guard elements. Comparing two compares the guards too.
#[derive(Clone, PartialEq)]
pub struct Lent<T> {
    memory: Vec<T>,
}

/// Its length and its first elements, enough to recognise it by.
impl<T: Clone + fmt::LowerHex> fmt::Debug for Lent<T> {
    fn fmt(&self, f: &mut fmt::Formatter<'_>) -> fmt::Result {
        let slice = self.slice();
        write!(f, "{} of", slice.len())?;
        slice.iter().take(4).try_for_each(|x| write!(f, " {x:x}"))?;
        f.write_str(if slice.len() > 4 { " ..." } else { "" })
    }
}

impl<T: PartialEq> Lent<T> {
    /// The first place, counted from the slice's start, where the two differ. Places below 0 and
    /// from the slice's end on are guards.
    fn first_difference(&self, other: &Lent<T>) -> Option<isize> {
        let place = self
            .memory
            .iter()
            .zip(&other.memory)
            .position(|(a, b)| a != b)?;
        Some(place as isize - GUARD as isize)
    }
}

impl<T: Clone> Lent<T> {
    /// Lends all but the first and the last few elements.
    fn inside(memory: Vec<T>) -> Lent<T> {
        Lent { memory }
    }

    /// Zeros, the guards too.
    fn zeros(length: usize) -> Lent<T>
    where
        T: Default,
    {
        Lent::inside(vec![T::default(); length + 2 * GUARD])
    }

    pub fn slice(&self) -> &[T] {
        &self.memory[GUARD..self.memory.len() - GUARD]
    }

    pub fn slice_mut(&mut self) -> &mut [T] {
        let end = self.memory.len() - GUARD;
        &mut self.memory[GUARD..end]
    }

    /// Takes elements away at the end, or puts copies of the last guard there.
    pub fn resize(&mut self, length: usize) {
        let guard = self.memory[self.memory.len() - 1].clone();
        self.memory.resize(length + 2 * GUARD, guard);
    }

    /// Lends these elements in place of those there were, inside the same guards.
    pub fn hold(&mut self, elements: &[T]) {
        let end = self.memory.len() - GUARD;
        self.memory.splice(GUARD..end, elements.iter().cloned());
    }
}

/// What a query looks at of a state: its share count, its bytes and words so far, its mark and its
/// hash. Calls without a state have the share count alone.
#[repr(C)]
#[derive(Clone, Copy, Debug, PartialEq)]
pub struct Outline {
    pub n: usize,
    pub fed: u64,
    pub drawn: u64,
    pub finished: u32,
    pub hash: u32,
}

impl Outline {
    /// Of a state of a hash with so many shares and bytes, and with the words that start and feeds
    /// draw for them: it is fit where these are allowed.
    pub fn of(hash: Hash, n: usize, fed: u64) -> Outline {
        Outline {
            n,
            fed,
            drawn: hash.compression_words(n).wrapping_mul(2 + fed / 64),
            finished: 0,
            hash: hash.code(),
        }
    }
}

/// The share count alone.
impl From<usize> for Outline {
    fn from(n: usize) -> Outline {
        Outline {
            n,
            fed: 0,
            drawn: 0,
            finished: 0,
            hash: 0,
        }
    }
}

/// All that a call can be lent, and its numbers. Each call takes what it needs.
#[derive(Clone, Debug, PartialEq)]
pub struct Arguments {
    /// The share count; of a call on a state, all its numbers.
    pub state: Outline,
    /// The value to split; x or a, r and g of the two-share forms.
    pub values: [u32; 3],
    pub inputs: [Lent<u32>; 2],
    pub bytes: Lent<u8>,
    /// The chain of a compression, or the inner one of a state, and the rest of a state: what a call
    /// takes and hands back by value. A chain of SHA-1 by itself is shorter, and the words after it
    /// are guards.
    pub chain: Lent<u32>,
    pub outer: Lent<u32>,
    pub tail: Lent<u8>,
    pub output: Lent<u32>,
    pub tag: Lent<u8>,
    pub words: Lent<u32>,
}

/// How long each slice is.
#[derive(Clone, Copy)]
pub struct Lengths {
    pub inputs: [usize; 2],
    pub bytes: usize,
    pub output: usize,
    pub tag: usize,
    pub words: usize,
}

impl Arguments {
    /// Random contents in slices of these lengths. The outer chain and the tail of a state are 0.
    pub fn random(n: usize, lengths: Lengths, random: &mut Random) -> Arguments {
        let mut words = |length| Lent::inside(random.words(length + 2 * GUARD));
        let inputs = lengths.inputs.map(&mut words);
        let output = words(lengths.output);
        let chain = words(SHA256_CHAIN_WORDS);
        let words = words(lengths.words);
        let mut bytes = |length| Lent::inside(random.bytes(length + 2 * GUARD));
        let (message, tag) = (bytes(lengths.bytes), bytes(lengths.tag));
        let values = std::array::from_fn(|_| random.word());
        Arguments {
            state: n.into(),
            values,
            inputs,
            bytes: message,
            chain,
            outer: Lent::zeros(SHA256_CHAIN_WORDS),
            tail: Lent::zeros(TAIL),
            output,
            tag,
            words,
        }
    }

    /// Makes a state up: of this outline, with anything in all its places and around them.
    pub fn make_up(&mut self, state: Outline, random: &mut Random) {
        self.state = state;
        self.outer.memory.fill_with(|| random.word());
        self.tail.memory.fill_with(|| random.word() as u8);
    }

    /// Puts words at the edges of the range in place of all that a call reads, but for bytes.
    pub fn to_edges(&mut self, random: &mut Random) {
        let [first, second] = &mut self.inputs;
        for read in [first, second, &mut self.chain, &mut self.words] {
            read.slice_mut().fill_with(|| random.edge());
        }
        self.values.fill_with(|| random.edge());
        self.outer.slice_mut().fill_with(|| random.edge());
    }

    /// The words of a compression's chain.
    pub fn chain_words<const WORDS: usize>(&self) -> [u32; WORDS] {
        std::array::from_fn(|place| self.chain.slice()[place])
    }

    /// Puts the chain that a compression hands back in the place of the one given.
    pub fn put_chain(&mut self, words: &[u32]) {
        self.chain.slice_mut()[..words.len()].copy_from_slice(words);
    }

    /// The numbers and slices that differ, each slice with the first place where it does.
    pub fn differences(&self, other: &Arguments) -> Vec<(&'static str, isize)> {
        let (a, b) = (&self.state, &other.state);
        let numbers = [
            ("n", a.n as u64, b.n as u64),
            ("fed", a.fed, b.fed),
            ("drawn", a.drawn, b.drawn),
            ("finished", a.finished.into(), b.finished.into()),
            ("hash", a.hash.into(), b.hash.into()),
        ];
        let words = [
            ("input 1", &self.inputs[0], &other.inputs[0]),
            ("input 2", &self.inputs[1], &other.inputs[1]),
            ("output", &self.output, &other.output),
            ("chain", &self.chain, &other.chain),
            ("outer", &self.outer, &other.outer),
            ("words", &self.words, &other.words),
        ];
        let bytes = [
            ("bytes", &self.bytes, &other.bytes),
            ("tag", &self.tag, &other.tag),
            ("tail", &self.tail, &other.tail),
        ];
        let numbers = numbers.map(|(name, a, b)| (name, (a != b).then_some(0)));
        let words = words.map(|(name, a, b)| (name, a.first_difference(b)));
        let bytes = bytes.map(|(name, a, b)| (name, a.first_difference(b)));
        let all = numbers.into_iter().chain(words).chain(bytes);
        all.filter_map(|(name, place)| Some((name, place?)))
            .collect()
    }
}
