//! What the public types show of themselves: no share, no byte of a key, no random word. And that
//! keys and streams can go to another thread, and errors be handed on as any error.

use flamivorse::{
    split, split_words, Bytes, Chain, ChainOf, Failure, Key, Refusal, Sha1, Sha256, Sha256Chain,
    State, Stream, Supply, Unverified, SHA256_CHAIN_WORDS,
};
use std::error::Error;
use std::fmt::Debug;

/// It would be shown as this.
const SECRET: u32 = 424_242;

fn text(value: impl Debug) -> String {
    let text = format!("{value:?}");
    assert!(!text.contains("424242"), "{text}");
    text
}

#[test]
fn of_counts_and_errors() -> Result<(), Refusal> {
    assert_eq!(text(split_words(4)?), "Needed(3)");
    assert_eq!(split_words(4)?.to_string(), "3");
    let drawn = split(2, 0, &mut [0; 2], &[SECRET; 2])?;
    assert_eq!(
        (text(drawn), drawn.to_string()),
        ("Drawn(1)".into(), "1".into())
    );
    assert_eq!(text(Unverified::WrongTag), "WrongTag");
    assert_eq!(Unverified::WrongTag.to_string(), "the tag is not right");
    let refused = Unverified::from(Refusal::TooLong);
    assert_eq!(text(refused), "Refused(TooLong)");
    assert_eq!(refused.to_string(), Refusal::TooLong.to_string());
    assert_eq!(
        text(Failure::<()>::from(Refusal::TooLong)),
        "Refused(TooLong)"
    );
    crate::report(5, "texts of counts and errors");
    Ok(())
}

#[test]
fn of_what_has_a_secret() -> Result<(), Refusal> {
    let key = Key::split(2, &SECRET.to_be_bytes(), &[SECRET; 16])?;
    assert_eq!(text(&key), "Key { n: 2, .. }");
    let secret = ChainOf {
        shares: [SECRET; SHA256_CHAIN_WORDS],
    };
    let state = State {
        inner: secret.clone(),
        outer: secret.clone(),
        tail: [42; 64],
        ..start(&key)?.state().clone()
    };
    assert_eq!(text(secret), "Chain { .. }");
    assert_eq!(text(Chain::default()), "Chain { .. }");
    let fields = "State { n: 2, bytes: 0, drawn: 20880, finished: 0, hash: 0, .. }";
    assert_eq!(text(state), fields);

    let mut supply = Supply::new(Bytes(&[42; 64][..]));
    supply.lend(split_words(2)?).expect("there are more");
    assert_eq!(text(Bytes(&[42; 64][..])), "Bytes { .. }");
    assert_eq!(text(&supply), "Supply { .. }");
    let mut stream = start(&key)?;
    let of_stream = format!("Stream {{ state: {fields} }}");
    assert_eq!(text(&stream), of_stream);
    let of_writer = format!("Writer {{ stream: {of_stream}, .. }}");
    assert_eq!(text(stream.writer(&mut supply)), of_writer);
    crate::report(8, "texts of what has a secret");
    Ok(())
}

fn start(key: &Key) -> Result<Stream, Refusal> {
    key.start(&[SECRET; 20_880])
}

#[test]
fn types() {
    fn goes_to_a_thread<T: Send + Sync + 'static>() {}
    fn is_an_error<E: Error + Send + Sync + 'static>() {}
    goes_to_a_thread::<(Key<Sha1>, Stream<Sha1>, Key<Sha256>, Stream<Sha256>)>();
    goes_to_a_thread::<(State, Chain, Sha256Chain, Supply<Bytes<std::fs::File>>)>();
    is_an_error::<Refusal>();
    is_an_error::<Unverified>();
    is_an_error::<Failure<std::io::Error>>();
}
