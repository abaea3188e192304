//! One entry, many calls: generate, ask the sides, compare, and make a failure small.

use std::{
    fmt::Debug,
    panic::{catch_unwind, AssertUnwindSafe},
    time::{Duration, Instant},
};

use model::{refusal::COMPUTED, Refusal};

use crate::{part::Part, rng::Rng};

/// What a side shows: an answer or the buffers, as numbers and counts in a fixed order.
#[derive(Clone, Debug, Default)]
pub struct Shown {
    pub numbers: Vec<f64>,
    pub counts: Vec<u64>,
    /// What is compared between port and model alone. Of an answer: sides and their masks, which the Rust has not, the bits of what clamp gives
    /// and of a run's margin, and the signs of a kept command. Of the buffers: the signs of what a calm check leaves, and the bits of what a run
    /// does.
    pub added: Vec<i64>,
}

/// The answer, and every buffer and state that was lent, at exit.
#[derive(Clone, Debug)]
pub struct Outcome {
    pub answer: Result<Shown, Refusal>,
    pub buffers: Shown,
}

pub type Call<I> = Box<dyn Fn(&I) -> Outcome + Send + Sync>;
/// `None` where the Rust lacks the size, the choice, the zones, the round table or the gripper's mode.
pub type RustCall<I> = Box<dyn Fn(&I) -> Option<Outcome> + Send + Sync>;
pub type Parts<I> = for<'a> fn(&'a mut I) -> Vec<Part<'a>>;

/// An entry of the scope document with its three sides.
pub struct Entry<I> {
    pub name: &'static str,
    pub generate: fn(&mut Rng) -> I,
    pub parts: Parts<I>,
    /// Smaller inputs of the same shape, for what no single part can make smaller.
    pub narrower: fn(&I) -> Vec<I>,
    /// The buffers at entry.
    pub before: fn(&I) -> Shown,
    pub model: Call<I>,
    pub rust: RustCall<I>,
    pub port: Option<Call<I>>,
}

#[derive(Clone, Copy)]
pub struct Budget {
    pub seed: u64,
    pub calls: u64,
    pub time: Duration,
}

#[derive(Clone, Debug, Default)]
pub struct Report {
    pub name: &'static str,
    pub linked: bool,
    pub calls: u64,
    pub accepted: u64,
    /// by number
    pub refused: [u64; 18],
    pub against_rust: u64,
    /// accepted, but of a size, a form, a choice, zones, a round table or a gripper's mode that the Rust lacks
    pub skipped: u64,
    pub against_port: u64,
    pub seconds: f64,
    pub failure: Option<String>,
}

/// An entry ready to run.
pub struct Task {
    pub name: &'static str,
    pub linked: bool,
    pub run: Box<dyn Fn(&Budget) -> Report + Send + Sync>,
}

/// What one call was.
struct Compared {
    number: u8,
    rust: bool,
}

impl<I: Clone + Debug + 'static> Entry<I> {
    pub fn task(self) -> Task {
        let (name, linked) = (self.name, self.port.is_some());
        Task { name, linked, run: Box::new(move |budget| self.run(budget)) }
    }

    fn run(&self, budget: &Budget) -> Report {
        let start = Instant::now();
        let mut report = Report { name: self.name, linked: self.port.is_some(), ..Report::default() };
        for call in 0..budget.calls {
            if call % 64 == 0 && start.elapsed() > budget.time {
                break;
            }
            let input = self.input(budget.seed, call);
            match self.check_safely(&input) {
                Ok(compared) => report.count(&compared),
                Err(_) => {
                    report.failure = Some(self.explain(budget.seed, call, input));
                    break;
                }
            }
        }
        report.seconds = start.elapsed().as_secs_f64();
        report
    }

    /// The input of one call: a good one, and of five two with a broken part.
    pub fn input(&self, seed: u64, call: u64) -> I {
        let name = self.name.bytes().fold(seed, |h, b| (h ^ b as u64).wrapping_mul(0x100_0000_01b3));
        let mut rng = Rng::new(name ^ call.wrapping_mul(0xd134_2543_de82_ef95));
        let mut input = (self.generate)(&mut rng);
        let breaks = rng.pick(&[0, 0, 0, 1, 1, 0, 0, 0, 1, 2]);
        for _ in 0..breaks {
            let mut parts = (self.parts)(&mut input);
            if !parts.is_empty() {
                let k = rng.below(parts.len());
                parts[k].damage(&mut rng);
            }
        }
        input
    }

    fn check_safely(&self, input: &I) -> Result<Compared, String> {
        catch_unwind(AssertUnwindSafe(|| self.check(input))).unwrap_or_else(|_| Err("a side panicked".into()))
    }

    fn check(&self, input: &I) -> Result<Compared, String> {
        let before = (self.before)(input);
        let want = (self.model)(input);
        kept(&before, &want)?;
        let rust = self.check_rust(input, &want)?;
        if let Some(port) = &self.port {
            let got = port(input);
            same("the port", &got, &want)?;
            if want.answer.is_err() {
                untouched(&before, &want, &got)?;
            }
        }
        Ok(Compared { number: want.answer.map_or_else(|r| r.number, |_| 0), rust })
    }

    /// The Rust where it can be asked: an accepted call, whose numbers are all finite, or one refused with 13, where
    /// its flags have to show a number that is not.
    fn check_rust(&self, input: &I, want: &Outcome) -> Result<bool, String> {
        let computed = want.answer.as_ref().is_err_and(|r| r.number == COMPUTED);
        if want.answer.is_err() && !(computed && oracle::FLAGS_READ) {
            return Ok(false);
        }
        oracle::take_raised();
        let Some(mut got) = (self.rust)(input) else {
            return Ok(false);
        };
        let counts = computed || oracle::FLAGS_EXACT;
        if oracle::take_raised() && counts && got.answer.is_ok() {
            got.answer = Err(Refusal { number: COMPUTED, place: 0 });
        }
        let due = in_the_rust(want);
        same("the Rust", &got, &due)?;
        // the forecast's entries before its place are the Rust's, too
        match due.answer {
            Err(r) if r.place > 0 && !same_shown(&got.buffers, &due.buffers) => {
                Err(format!("the Rust's slacks are others: {}", first_apart(&got.buffers, &due.buffers)))
            }
            _ => Ok(true),
        }
    }

    /// The smallest input found that still fails, with what fails there.
    fn explain(&self, seed: u64, call: u64, input: I) -> String {
        let hook = std::panic::take_hook();
        std::panic::set_hook(Box::new(|_| ()));
        let small = self.shrink(input);
        let why = self.check_safely(&small).err().unwrap_or_default();
        std::panic::set_hook(hook);
        format!("{} fails at call {call} of seed {seed}.\n  {why}\n  smallest input found: {small:?}", self.name)
    }

    fn shrink(&self, mut input: I) -> I {
        let start = Instant::now();
        while start.elapsed() < Duration::from_secs(20) {
            match self.smaller(&input) {
                Some(next) => input = next,
                None => break,
            }
        }
        input
    }

    /// An input one step smaller that still fails.
    fn smaller(&self, input: &I) -> Option<I> {
        let narrower = (self.narrower)(input);
        if let Some(next) = narrower.into_iter().find(|i| self.check_safely(i).is_err()) {
            return Some(next);
        }
        let count = (self.parts)(&mut input.clone()).len();
        for k in 0..count {
            let mut way = 0;
            loop {
                let mut next = input.clone();
                let changed = (self.parts)(&mut next)[k].simplify(way);
                match changed {
                    None => break,
                    Some(true) if self.check_safely(&next).is_err() => return Some(next),
                    _ => way += 1,
                }
            }
        }
        None
    }
}

impl Report {
    fn count(&mut self, c: &Compared) {
        self.calls += 1;
        self.accepted += (c.number == 0) as u64;
        self.refused[c.number as usize] += (c.number != 0) as u64;
        self.against_rust += c.rust as u64;
        self.skipped += (c.number == 0 && !c.rust) as u64;
        self.against_port += self.linked as u64;
    }
}

/// Equal as numbers: the two zeros are one, and an untouched NaN is itself.
fn same_number(a: f64, b: f64) -> bool {
    a == b || a.to_bits() == b.to_bits() || (a.is_nan() && b.is_nan())
}

/// What the Rust has of an outcome.
fn in_the_rust(o: &Outcome) -> Outcome {
    let plain = |shown: Shown| Shown { added: vec![], ..shown };
    Outcome { answer: o.answer.clone().map(plain), buffers: plain(o.buffers.clone()) }
}

fn same_shown(a: &Shown, b: &Shown) -> bool {
    a.counts == b.counts
        && a.added == b.added
        && a.numbers.len() == b.numbers.len()
        && a.numbers.iter().zip(&b.numbers).all(|(x, y)| same_number(*x, *y))
}

/// The first place where two lists of numbers part.
fn first_apart(a: &Shown, b: &Shown) -> String {
    let number = a.numbers.iter().zip(&b.numbers).position(|(x, y)| !same_number(*x, *y));
    match number {
        Some(i) => format!("number {i} is {:?}, not {:?}", a.numbers[i], b.numbers[i]),
        None if a.counts != b.counts => format!("counts {:?}, not {:?}", a.counts, b.counts),
        None => format!("added {:?}, not {:?}", a.added, b.added),
    }
}

fn same(side: &str, got: &Outcome, want: &Outcome) -> Result<(), String> {
    match (&got.answer, &want.answer) {
        (Ok(a), Ok(b)) if !same_shown(a, b) => {
            Err(format!("{side} answers otherwise than the model: {}", first_apart(a, b)))
        }
        (Ok(_), Ok(_)) if !same_shown(&got.buffers, &want.buffers) => {
            Err(format!("{side} leaves other buffers than the model: {}", first_apart(&got.buffers, &want.buffers)))
        }
        (Ok(_), Ok(_)) => Ok(()),
        (Err(a), Err(b)) if a == b => Ok(()),
        (Ok(_), Err(b)) => Err(format!("{side} accepts; the model says {b:?}")),
        (Err(a), Ok(_)) => Err(format!("{side} says {a:?}; the model accepts")),
        (Err(a), Err(b)) => Err(format!("{side} says {a:?}; the model says {b:?}")),
    }
}

/// A refusal of the model leaves every buffer as it was; the forecast's 13 keeps the entries before its place.
fn kept(before: &Shown, want: &Outcome) -> Result<(), String> {
    let Err(refusal) = want.answer else {
        return Ok(());
    };
    let from = refusal.place.saturating_sub(1);
    let pairs = before.numbers.iter().zip(&want.buffers.numbers).skip(from);
    if pairs.into_iter().all(|(a, b)| a.to_bits() == b.to_bits()) && before.counts == want.buffers.counts {
        Ok(())
    } else {
        Err(format!("the model refuses with {refusal:?} and yet changes a buffer"))
    }
}

/// After a refusal the port's buffers are bit for bit those at entry, save what the model has written.
fn untouched(before: &Shown, want: &Outcome, got: &Outcome) -> Result<(), String> {
    let bits = |s: &Shown, i: usize| s.numbers[i].to_bits();
    let fine = |i: usize| match bits(&want.buffers, i) == bits(before, i) {
        true => bits(&got.buffers, i) == bits(before, i),
        false => same_number(got.buffers.numbers[i], want.buffers.numbers[i]),
    };
    let kept = got.buffers.counts == before.counts && got.buffers.added == want.buffers.added;
    if kept && (0..before.numbers.len()).all(fine) {
        Ok(())
    } else {
        Err("the port refuses and yet changes a buffer".into())
    }
}
