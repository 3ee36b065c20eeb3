//! Calls on a state: the arguments' state as the struct of either side, and the one handed back,
//! which takes its place.

use crate::calls::Outcome;
use crate::lent::{Arguments, Outline};
use flamivorse::{Drawn, Refusal, SHA256_CHAIN_WORDS};

/// The state of one side.
macro_rules! state_of {
    ($side:ident) => {
        /// With something in every place that a query does not look at.
        impl From<Outline> for $side::State {
            fn from(state: Outline) -> $side::State {
                let shares = [0xa5a5_a5a5; SHA256_CHAIN_WORDS];
                $side::State {
                    n: state.n,
                    bytes: state.fed,
                    drawn: state.drawn,
                    finished: state.finished,
                    hash: state.hash,
                    inner: $side::Sha256Chain { shares },
                    outer: $side::Sha256Chain { shares },
                    tail: [0xa5; 64],
                }
            }
        }

        impl From<&Arguments> for $side::State {
            fn from(a: &Arguments) -> $side::State {
                let mut state = $side::State::from(a.state);
                state.inner.shares.copy_from_slice(a.chain.slice());
                state.outer.shares.copy_from_slice(a.outer.slice());
                state.tail.copy_from_slice(a.tail.slice());
                state
            }
        }

        impl HandedBack for $side::State {
            fn put_into(&self, a: &mut Arguments) {
                a.state = Outline {
                    n: self.n,
                    fed: self.bytes,
                    drawn: self.drawn,
                    finished: self.finished,
                    hash: self.hash,
                };
                a.chain.slice_mut().copy_from_slice(&self.inner.shares);
                a.outer.slice_mut().copy_from_slice(&self.outer.shares);
                a.tail.slice_mut().copy_from_slice(&self.tail);
            }
        }
    };
}

trait HandedBack {
    fn put_into(&self, arguments: &mut Arguments);
}

state_of!(flamivorse);
state_of!(second);

/// A call of the archive on this state.
pub fn by_archive(
    a: &mut Arguments,
    mut state: flamivorse::State,
    call: impl FnOnce(&mut flamivorse::State, &mut Arguments) -> Result<Drawn, Refusal>,
) -> Outcome {
    let answer = call(&mut state, a);
    state.put_into(a);
    answer.into()
}

/// A call of `second` on the arguments' state.
pub fn by_second(
    a: &mut Arguments,
    call: impl FnOnce(second::State, &mut Arguments) -> second::Streamed,
) -> Outcome {
    let answer = call((&*a).into(), a);
    answer.state.put_into(a);
    Outcome {
        number: answer.number,
        count: answer.drawn,
    }
}
