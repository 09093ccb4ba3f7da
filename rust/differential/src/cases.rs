//! Runs cases by number, each drawn from the seed, the test's name and its own number alone.

use std::collections::BTreeSet;
use std::env;

use model::random::Random;
use model::show;

use crate::calls::Call;
use crate::library::Library;
use crate::smaller;

/// The seed where `SEED` does not say otherwise.
const SEED: u64 = 221;

/// A case that is under way.
pub struct Trial<'a, L> {
    /// Where its inputs are drawn from.
    pub random: Random,
    library: &'a mut L,
    name: &'a str,
    seed: u64,
    number: u64,
    reached: &'a mut Reached,
}

impl<L: Library> Trial<'_, L> {
    /// Makes a call and holds what it leaves to the model; a difference ends the test.
    pub fn call<C: Call>(&mut self, call: &C) -> C::Left {
        let left = self.library.call(call);
        let expected = call.expected();
        self.reached.calls += 1;
        self.reached.outcomes.extend(C::outcome(&left));
        if left != expected {
            self.tell(call, left, expected);
        }
        left
    }

    /// Ends the test. The call is told without those before it, as it is given its whole state, and as small as it still
    /// differs. How the case is run again is told first: a smaller call may end the library's server or the model.
    fn tell<C: Call>(&mut self, call: &C, left: C::Left, expected: C::Left) -> ! {
        let Trial { seed, number, name, library, .. } = self;
        let test = L::TEST;
        eprintln!(
            "again:   SEED={seed} CASE={number} cargo test --offline --release -p differential --test {test} {name}"
        );
        let (call, (left, expected)) = smaller::smallest(call.clone(), (left, expected), |call| {
            let (left, expected) = (library.call(call), call.expected());
            (left != expected).then_some((left, expected))
        });
        let first = show::parting(&left, &expected);
        panic!("the library and the model differ; the call is made smaller\nfirst:   {first}\ncall:    {call:?}\nlibrary: {left:?}\nmodel:   {expected:?}");
    }
}

/// What the cases of a test came to.
#[derive(Default)]
pub struct Reached {
    calls: u64,
    outcomes: BTreeSet<String>,
}

impl Reached {
    /// Asks that the cases met each number of a kind of outcome; too few cases are not asked.
    pub fn all(&self, kind: &str, numbers: impl IntoIterator<Item = u8>) {
        for number in numbers {
            let outcome = format!("{kind} {number}");
            assert!(self.calls < 5000 || self.outcomes.contains(&outcome), "no case reaches {outcome}");
        }
    }
}

/// Runs the cases of the test `name`. One with a share of 10 has a tenth of the cases, as its own are longer.
pub fn run<L: Library>(name: &str, share: u64, case: impl Fn(&mut Trial<L>)) -> Reached {
    let seed = setting("SEED").unwrap_or(SEED);
    let count = (setting("CASES").unwrap_or(L::CASES) / share).max(1);
    let numbers = match setting("CASE") {
        Some(number) => number..number + 1,
        None => 0..count,
    };
    let mut library = L::start();
    let mut reached = Reached::default();
    for number in numbers.clone() {
        let random = random(name, seed, number);
        case(&mut Trial { random, library: &mut library, name, seed, number, reached: &mut reached });
    }
    println!("{name}: {} calls in {} cases", reached.calls, numbers.end - numbers.start);
    reached
}

fn setting(name: &str) -> Option<u64> {
    let text = env::var(name).ok()?;
    Some(text.parse().unwrap_or_else(|_| panic!("{name} is a number, not {text:?}")))
}

/// Other names and seeds give other cases with the same number.
fn random(name: &str, seed: u64, number: u64) -> Random {
    let mixed = name.bytes().fold(seed, |sum, octet| Random::new(sum ^ u64::from(octet)).bits());
    let first = Random::new(mixed.wrapping_add(number)).bits();
    Random::new(first)
}
