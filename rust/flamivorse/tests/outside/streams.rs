//! Messages that come in pieces: however a message is cut, it has the tag of the one-call form and of
//! RustCrypto, and the same end state; the state counts the words drawn; a refusal leaves a stream as
//! it was; a state of the other hash is refused; pieces fed with words from a supply, and written.

use crate::hashes::{with_each_hash, Tested};
use crate::tags::tag;
use flamivorse::{
    Drawn, Failure, Hash, Key, Needed, Refusal, Source, State, Stream, Supply, MESSAGE_LIMIT,
    SHA256_CHAIN_WORDS,
};
use fuzz::calls::{quick_message, SOME_COUNTS};
use fuzz::outside::Vector;
use fuzz::random::Random;
use std::cell::Cell;
use std::io::{self, Write};

with_each_hash!(
    every_cut_of_the_rfc,
    cuts_of_random_messages,
    count_of_words,
    unused_places,
    state_of_the_other_hash,
    after_a_finish,
    limit_of_all_pieces,
    fed_by_blocks,
    written
);

/// All fields of a state: share count; bytes and words; mark and hash; chains; tail.
type Fields = (
    usize,
    [u64; 2],
    [u32; 2],
    [[u32; SHA256_CHAIN_WORDS]; 2],
    [u8; 64],
);

fn fields(state: &State) -> Fields {
    let chains = [state.inner.shares, state.outer.shares];
    let (counts, codes) = ([state.bytes, state.drawn], [state.finished, state.hash]);
    (state.n, counts, codes, chains, state.tail)
}

/// Seeded words for the calls of one message, and how many were drawn.
struct Words {
    random: Random,
    drawn: usize,
}

impl Words {
    fn new(seed: u64) -> Words {
        let random = Random::new(seed);
        Words { random, drawn: 0 }
    }

    /// Makes a call with exactly the words that its query tells; first with one word less, which is
    /// refused and must change nothing.
    fn lent<T>(
        &mut self,
        count: Result<Needed, Refusal>,
        mut call: impl FnMut(&[u32]) -> Result<T, Refusal>,
    ) -> T {
        let words = self.random.words(count.expect("a fit state").words());
        if let Some((_, fewer)) = words.split_last() {
            assert_eq!(call(fewer).err(), Some(Refusal::SupplyShort));
        }
        self.drawn += words.len();
        call(&words).expect("exactly these words")
    }

    fn start<H: Hash>(&mut self, key: &Key<H>) -> Stream<H> {
        self.lent(key.start_words(), |words| key.start(words))
    }

    fn feed<H: Hash>(&mut self, stream: &mut Stream<H>, piece: &[u8]) {
        let count = stream.feed_words(piece.len());
        self.lent(count, |words| stream.feed(piece, words));
    }

    fn finish<H: Hash>(&mut self, stream: &mut Stream<H>) -> H::Tag {
        self.lent(stream.finish_words(), |words| stream.finish(words))
    }
}

/// A key of n shares.
fn split<H: Hash>(n: usize, key: &[u8]) -> Key<H> {
    let count = Key::split_for_words::<H>(n, key.len());
    Words::new(500).lent(count, |words| Key::split_for(n, key, words))
}

/// The tag of a message in pieces of these lengths, its state before the finish, and how many words
/// were drawn. The words are always the same.
fn in_pieces<H: Hash>(key: &Key<H>, message: &[u8], lengths: &[usize]) -> (H::Tag, Fields, usize) {
    let mut words = Words::new(501);
    let mut stream = words.start(key);
    let mut rest = message;
    for &length in lengths {
        let (piece, after) = rest.split_at(length);
        words.feed(&mut stream, piece);
        rest = after;
    }
    assert!(rest.is_empty());
    let end = fields(stream.state());
    (words.finish(&mut stream), end, words.drawn)
}

/// Compares every one of these cuts with the others, with the one-call form and with RustCrypto.
pub fn compare<H: Tested>(n: usize, key: &[u8], message: &[u8], cuts: &[Vec<usize>]) -> usize {
    let split = split::<H>(n, key);
    let whole = in_pieces(&split, message, &[message.len()]);
    assert_eq!(whole.0, H::outside_tag(key, message));
    let in_one_call = tag::<H>(n, key, message, &mut Random::new(502));
    assert_eq!(in_one_call, Ok(whole.0));
    let count = split.tag_words(message.len()).map(Needed::words);
    assert_eq!(count, Ok(whole.2));
    for lengths in cuts {
        let again = in_pieces(&split, message, lengths);
        assert!(again == whole, "{lengths:?} at n = {n}");
    }
    1 + cuts.len()
}

/// Every cut in two, empty pieces among them, and single bytes.
fn every_cut(length: usize) -> Vec<Vec<usize>> {
    let in_two = (0..=length).map(|first| vec![first, length - first]);
    in_two.chain([vec![1; length]]).collect()
}

/// Pieces of one length; the last may be shorter.
fn equal_pieces(length: usize, piece: usize) -> Vec<usize> {
    let mut lengths = vec![piece; length / piece];
    lengths.push(length % piece);
    lengths
}

/// Pieces of any length, mostly short, a third of them empty.
fn random_pieces(length: usize, random: &mut Random) -> Vec<usize> {
    let (mut lengths, mut rest) = (vec![], length);
    while rest > 0 {
        let most = [0, 130, rest][random.below(3)];
        lengths.push(random.below(most + 1).min(rest));
        rest -= lengths[lengths.len() - 1];
    }
    lengths
}

/// Every cut; some at more than eight shares, where each draws millions of words.
fn every_cut_of_the_rfc<H: Tested>() {
    let mut cases = 0;
    for n in SOME_COUNTS {
        for Vector { key, message, .. } in H::calls().hash.vectors() {
            let mut cuts = every_cut(message.len());
            if n > 8 {
                cuts = cuts.into_iter().step_by(25).collect();
            }
            cases += compare::<H>(n, &key, &message, &cuts);
        }
    }
    H::report(cases, "cuts of the messages of the RFC");
}

/// At each share count lengths around the edges of blocks and at random.
fn cuts_of_random_messages<H: Tested>() {
    let mut random = Random::new(503);
    let mut cases = 0;
    for (n, messages) in SOME_COUNTS.into_iter().zip([40, 30, 8, 8, 4, 2, 0]) {
        let any = (0..messages).map(|_| random.below(quick_message(n) + 1));
        let lengths: Vec<usize> = [0, 55, 56, 63, 64, 65, 120]
            .into_iter()
            .chain(any)
            .collect();
        for length in lengths {
            let key_length = random.key_length();
            let (key, message) = (random.bytes(key_length), random.bytes(length));
            let mut cuts: Vec<_> = [1, 63, 64, 65]
                .map(|piece| equal_pieces(length, piece))
                .into();
            cuts.extend((0..3).map(|_| random_pieces(length, &mut random)));
            cases += compare::<H>(n, &key, &message, &cuts);
        }
    }
    H::report(cases, "cuts of random messages");
}

/// The state counts so many words: those of the compressions that its bytes have taken.
fn counts<H: Tested>(stream: &Stream<H>, drawn: usize) {
    let (state, hash) = (stream.state(), H::calls().hash);
    let counted = (2 + state.bytes / 64) * hash.compression_words(state.n);
    assert_eq!((state.drawn, counted), (drawn as u64, drawn as u64));
    assert_eq!(state.hash, hash.code());
}

/// Over a run of calls the state counts what the start and the accepted feeds drew. A refused call
/// adds nothing, and neither does a finish. At one share there is nothing to count.
fn count_of_words<H: Tested>() {
    let lengths = [0, 1, 62, 1, 0, 64, 63, 65, 129];
    for n in SOME_COUNTS {
        let mut words = Words::new(514);
        let mut stream = words.start(&split::<H>(n, b"key"));
        counts(&stream, words.drawn);
        for length in lengths {
            words.feed(&mut stream, &vec![7; length]);
            counts(&stream, words.drawn);
            let long = stream.feed(&[0; MESSAGE_LIMIT + 1], &[]);
            assert_eq!(long, Err(Refusal::TooLong));
            counts(&stream, words.drawn);
        }
        let drawn = words.drawn;
        words.finish(&mut stream);
        counts(&stream, drawn);
        assert_eq!(stream.finish(&[]), Err(Refusal::StateUnfit));
        counts(&stream, drawn);
        assert_eq!(drawn == 0, n == 1);
    }
    let calls = SOME_COUNTS.len() * (3 + 2 * lengths.len());
    H::report(calls, "calls after which the state counts its words");
}

/// What is not used of a state has no say. An accepted feed makes it 0, of an empty piece too; a
/// finish keeps it.
fn unused_places<H: Tested>() {
    let mut random = Random::new(504);
    for n in SOME_COUNTS {
        let used = H::calls().hash.words() * n;
        let mut words = Words::new(505);
        let mut stream = words.start(&split::<H>(n, b"key"));
        words.feed(&mut stream, &random.bytes(100));
        let mut junk = stream.state().clone();
        junk.inner.shares[used..].fill_with(|| random.word());
        junk.outer.shares[used..].fill_with(|| random.word());
        junk.tail[36..].fill_with(|| random.word() as u8);
        let before = fields(&junk);

        let mut cleared = junk.clone();
        let empty = H::FEED(&mut cleared, &[], &[]);
        assert_eq!(empty.map(Drawn::words), Ok(0));
        assert!(fields(&cleared) == fields(stream.state()));

        let [mut tag, mut other] = [H::Tag::default(); 2];
        let lent = random.words(stream.finish_words().expect("a fit state").words());
        H::FINISH(&mut junk, tag.as_mut(), &lent).expect("exactly these words");
        H::FINISH(&mut cleared, other.as_mut(), &lent).expect("exactly these words");
        assert_eq!(tag, other);
        assert_eq!(junk.finished, 1);
        junk.finished = 0;
        assert!(fields(&junk) == before);
    }
    H::report(
        SOME_COUNTS.len() * 2,
        "states with something in their unused places",
    );
}

/// A state that is fit for one hash is refused by the calls of the other, and neither it nor the tag
/// changes.
fn state_of_the_other_hash<H: Tested>() {
    let lent = vec![7; 100_000];
    for n in [1, 2, 3] {
        let mut words = Words::new(515);
        let mut stream = words.start(&split::<H::Other>(n, b"key"));
        words.feed(&mut stream, &[7; 70]);
        let (mut state, mut tag) = (stream.state().clone(), H::Tag::default());
        for piece in [&[][..], &[7; 64]] {
            let fed = H::FEED(&mut state, piece, &lent);
            assert_eq!(fed, Err(Refusal::StateUnfit));
        }
        let finished = H::FINISH(&mut state, tag.as_mut(), &lent);
        assert_eq!(finished, Err(Refusal::StateUnfit));
        assert!(fields(&state) == fields(stream.state()));
        assert_eq!(tag, H::Tag::default());
    }
    H::report(3 * 3, "calls on a state of the other hash");
}

/// After a finish every call is refused, and the state stays. A copy from before can be finished
/// again, with other words, and fed further.
fn after_a_finish<H: Tested>() {
    let message = [7; 70];
    for n in SOME_COUNTS {
        let mut words = Words::new(506);
        let mut stream = words.start(&split::<H>(n, b"key"));
        words.feed(&mut stream, &message);
        let mut before = stream.clone();
        assert_eq!(words.finish(&mut stream), H::outside_tag(b"key", &message));

        let end = fields(stream.state());
        let refused = Some(Refusal::StateUnfit);
        assert_eq!(stream.feed_words(0).err(), refused);
        assert_eq!(stream.finish_words().err(), refused);
        for piece in [&[][..], &[0], &[0; MESSAGE_LIMIT + 1]] {
            assert_eq!(stream.feed(piece, &[]).err(), refused);
        }
        assert_eq!(stream.finish(&[]).err(), refused);
        assert!(fields(stream.state()) == end);

        let again = words.finish(&mut before.clone());
        assert_eq!(again, H::outside_tag(b"key", &message));
        words.feed(&mut before, &message);
        let further = words.finish(&mut before);
        assert_eq!(further, H::outside_tag(b"key", &[7; 140]));
    }
    H::report(SOME_COUNTS.len() * 9, "calls after a finish");
}

/// The share counts at which the longest message is streamed. At more it takes seconds.
const LONG_COUNTS: [usize; 4] = [1, 2, 3, 4];

/// The limit counts all pieces, each of which is lent its own words. What would pass it is refused
/// whole, and what fits is taken after it.
fn limit_of_all_pieces<H: Tested>() {
    let message = Random::new(507).bytes(MESSAGE_LIMIT);
    let (most, rest) = message.split_at(MESSAGE_LIMIT - 96);
    for n in LONG_COUNTS {
        let mut words = Words::new(508);
        let mut stream = words.start(&split::<H>(n, b"key"));
        let long = stream.feed(&[0; MESSAGE_LIMIT + 1], &[]);
        assert_eq!(long, Err(Refusal::TooLong));
        for piece in most.chunks(1000) {
            words.feed(&mut stream, piece);
        }
        for length in [rest.len() + 1, MESSAGE_LIMIT, usize::MAX] {
            assert_eq!(stream.feed_words(length), Err(Refusal::TooLong));
        }
        let long = stream.feed(&vec![0; rest.len() + 1], &[]);
        assert_eq!(long, Err(Refusal::TooLong));
        words.feed(&mut stream, rest);
        assert_eq!(stream.feed(&[0], &[]), Err(Refusal::TooLong));
        words.feed(&mut stream, &[]);
        let tag = words.finish(&mut stream);
        assert_eq!(tag, H::outside_tag(b"key", &message));
    }
    H::report(LONG_COUNTS.len() * 8, "pieces at the limit");
}

/// A supply of seeded words that ends after so many of them, and tells how many were asked for at
/// once at most.
fn ending(mut left: usize, most: &Cell<usize>) -> Supply<impl Source<Error = io::Error> + '_> {
    let mut random = Random::new(509);
    Supply::new(move |words: &mut [u32]| {
        most.set(most.get().max(words.len()));
        left = left
            .checked_sub(words.len())
            .ok_or(io::ErrorKind::UnexpectedEof)?;
        words.fill_with(|| random.word());
        Ok(())
    })
}

/// A stream at n shares that has so many bytes already.
fn begun<H: Hash>(n: usize, bytes: &[u8]) -> Stream<H> {
    let mut words = Words::new(510);
    let mut stream = words.start(&split::<H>(n, b"key"));
    words.feed(&mut stream, bytes);
    stream
}

/// How many bytes a stream has before a piece, and the piece's length.
#[rustfmt::skip]
const PIECES: [(usize, usize); 7] = [(0, 0), (0, 63), (0, 64), (1, 63), (1, 200), (63, 1), (100, 200)];

/// A supply lends the words of one block at a time, and all together they are those of one feed. One
/// that ends before leaves the stream as it was.
fn fed_by_blocks<H: Tested>() {
    let message = Random::new(511).bytes(300);
    for n in SOME_COUNTS {
        for (first, length) in PIECES {
            let (before, piece) = (&message[..first], &message[first..first + length]);
            let (mut stream, most) = (begun::<H>(n, before), Cell::new(0));
            let need = stream.feed_words(length).expect("a fit state");
            if need.words() > 0 {
                let failed = stream.feed_by_blocks(piece, &mut ending(need.words() - 1, &most));
                assert!(matches!(failed, Err(Failure::Source(_))));
                assert!(fields(stream.state()) == fields(begun::<H>(n, before).state()));
            }
            let drawn = stream.feed_by_blocks(piece, &mut ending(need.words(), &most));
            assert!(matches!(drawn, Ok(drawn) if drawn.words() == need.words()));
            assert!(most.get() as u64 <= H::calls().hash.compression_words(n));

            let mut whole = begun::<H>(n, before);
            let words = Random::new(509).words(need.words());
            whole.feed(piece, &words).expect("exactly these words");
            assert!(fields(stream.state()) == fields(whole.state()));
        }
    }
    H::report(SOME_COUNTS.len() * PIECES.len(), "pieces fed by blocks");
}

/// What is copied to a stream is fed. A refusal and a failed source are errors of their own kind, no
/// word is lent for a refusal, and nothing of such a write is taken.
fn written<H: Tested>() {
    let mut cases = 0;
    for n in SOME_COUNTS {
        let longest = match LONG_COUNTS.contains(&n) {
            true => MESSAGE_LIMIT,
            false => quick_message(n),
        };
        for length in [0, 1, 64, 65, longest] {
            let (message, most) = (Random::new(512).bytes(length), Cell::new(0));
            let (mut stream, mut supply) = (begun::<H>(n, &[]), ending(usize::MAX, &most));
            let copied = io::copy(&mut &message[..], &mut stream.writer(&mut supply));
            assert_eq!(copied.expect("within the limits"), length as u64);

            let mut none = Supply::new(|_: &mut [u32]| -> io::Result<()> { panic!("lent") });
            let rest = vec![0; MESSAGE_LIMIT + 1 - length];
            let refused = stream.writer(&mut none).write_all(&rest).unwrap_err();
            let inner = refused.get_ref().and_then(|inner| inner.downcast_ref());
            assert_eq!(inner, Some(&Refusal::TooLong));
            if n > 1 && rest.len() > 64 {
                let failed = stream.writer(&mut ending(0, &most)).write(&rest[1..]);
                assert_eq!(failed.unwrap_err().kind(), io::ErrorKind::UnexpectedEof);
            }
            let tag = Words::new(513).finish(&mut stream);
            assert_eq!(tag, H::outside_tag(b"key", &message));
            cases += 1;
        }
    }
    H::report(cases, "messages written");
}
