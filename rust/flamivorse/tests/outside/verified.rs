//! Verifying, by a key and by a stream: the right tag alone is verified, and a refusal is told apart
//! from a wrong tag. And comparing, by Rust and by C.

use crate::hashes::{with_each_hash, Tested};
use flamivorse::{same_tag, Key, Needed, Refusal, Stream, Unverified, MESSAGE_LIMIT};
use fuzz::calls::{Target, SAME_TAG};
use fuzz::lent::Arguments;
use fuzz::random::Random;

with_each_hash!(right_and_wrong_tags, refusals, after_a_verdict);

/// A message, the key and a stream that was fed all of it, with the words to verify a tag by either.
struct Verifying<H> {
    message: Vec<u8>,
    key: Key<H>,
    stream: Stream<H>,
    key_words: Vec<u32>,
    stream_words: Vec<u32>,
}

impl<H: Tested> Verifying<H> {
    fn new(n: usize) -> Verifying<H> {
        let (mut random, message) = (Random::new(800), b"07:30 door opened".to_vec());
        let mut lent = |count: Result<Needed, Refusal>| {
            random.words(count.expect("within the limits").words())
        };
        let words = lent(Key::split_for_words::<H>(n, 3));
        let key = Key::split_for::<H>(n, b"key", &words).expect("its words");
        let mut stream = key.start(&lent(key.start_words())).expect("its words");
        stream.feed(&message, &[]).expect("less than a block");
        Verifying {
            key_words: lent(key.tag_words(message.len())),
            stream_words: lent(stream.finish_words()),
            message,
            key,
            stream,
        }
    }

    /// The verdict on a tag, which is the same by key and by stream, and that of the comparison.
    fn verdict(&self, tag: &[u8]) -> Result<(), Unverified> {
        let by_key = self.key.verify(&self.message, tag, &self.key_words);
        let by_stream = self.stream.clone().verify(tag, &self.stream_words);
        assert_eq!(by_key, by_stream);
        assert_eq!(by_key.is_ok(), same_tag(self.right().as_ref(), tag));
        by_key
    }

    fn right(&self) -> H::Tag {
        H::outside_tag(b"key", &self.message)
    }
}

/// A tag with each of its bits turned, each part of it from its start, and more than all of it.
fn wrong_tags(right: &[u8]) -> Vec<Vec<u8>> {
    let turned = (0..8 * right.len()).map(|bit| {
        let mut tag = right.to_vec();
        tag[bit / 8] ^= 1 << (bit % 8);
        tag
    });
    let parts = (0..right.len()).map(|length| right[..length].to_vec());
    let longer = [&[0][..], right].map(|more| [right, more].concat());
    turned.chain(parts).chain(longer).collect()
}

fn right_and_wrong_tags<H: Tested>() {
    let mut cases = 0;
    for n in [1, 2, 4] {
        let verifying = Verifying::<H>::new(n);
        let wrong = wrong_tags(verifying.right().as_ref());
        // At more shares, which are slower, some of them do.
        for tag in wrong.iter().step_by(1 + 10 * (n - 1)) {
            assert_eq!(verifying.verdict(tag), Err(Unverified::WrongTag));
            cases += 1;
        }
        assert_eq!(verifying.verdict(verifying.right().as_ref()), Ok(()));
        cases += 1;
    }
    H::report(cases, "tags verified or not");
}

/// A refusal comes before any verdict: for the right tag, for zeros, which a refused call leaves, and
/// for a tag of another length.
fn refusals<H: Tested>() {
    let mut verifying = Verifying::<H>::new(2);
    let right = verifying.right();
    let short = Err(Unverified::Refused(Refusal::SupplyShort));
    for tag in [right.as_ref(), H::Tag::default().as_ref(), &[]] {
        let (_, fewer) = verifying.key_words.split_last().expect("a word");
        assert_eq!(verifying.key.verify(&verifying.message, tag, fewer), short);
        let (_, fewer) = verifying.stream_words.split_last().expect("a word");
        assert_eq!(verifying.stream.verify(tag, fewer), short);
        let long = verifying.key.verify(&[0; MESSAGE_LIMIT + 1], tag, &[]);
        assert_eq!(long, Err(Unverified::Refused(Refusal::TooLong)));
    }
    // The stream is as it was.
    assert_eq!(verifying.verdict(right.as_ref()), Ok(()));
    H::report(9, "tags refused");
}

/// A stream that has said of a tag that it is right or wrong says no more.
fn after_a_verdict<H: Tested>() {
    let verifying = Verifying::<H>::new(2);
    let unfit = Err(Unverified::Refused(Refusal::StateUnfit));
    for tag in [verifying.right(), H::Tag::default()] {
        let mut stream = verifying.stream.clone();
        let first = stream.verify(tag.as_ref(), &verifying.stream_words);
        assert_eq!(first, verifying.verdict(tag.as_ref()));
        let again = stream.verify(tag.as_ref(), &verifying.stream_words);
        assert_eq!(again, unfit);
        assert_eq!(stream.feed(b"", &[]), Err(Refusal::StateUnfit));
    }
    H::report(4, "verdicts of finished streams");
}

/// Texts of every length to some blocks of vectors, with themselves, with one bit of each byte turned,
/// and with those one byte longer or shorter.
#[test]
fn texts_compared() {
    let (mut random, mut cases) = (Random::new(801), 0);
    let text = random.bytes(71);
    for length in 0..text.len() {
        let mut same = |other: &[u8], wanted: bool| {
            let mut lent = Arguments::random(0, SAME_TAG.lengths(0, 0), &mut random);
            lent.bytes.hold(&text[..length]);
            lent.tag.hold(other);
            for target in [Target::Rust, Target::C] {
                assert_eq!(SAME_TAG.compare(target, &lent).0.count, wanted.into());
                cases += 1;
            }
        };
        same(&text[..length], true);
        same(&text[..length + 1], false);
        for place in 0..length {
            let mut other = text[..length].to_vec();
            other[place] ^= 1 << (place % 8);
            same(&other, false);
            other.truncate(place);
            same(&other, false);
        }
    }
    crate::report(cases, "texts compared");
}
