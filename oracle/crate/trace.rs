//! The hook for the reference positions. The build adds this module to a second copy of the crate's lib.rs,
//! with two lines in its filling: `given` replaces the random word, `seen` is told what came of it.

use std::boxed::Box;
use std::cell::RefCell;

/// What the crate's own arithmetic made of a word.
#[derive(Clone, Copy, Debug)]
pub struct Seen {
    pub pass: usize,
    pub slice: usize,
    pub lane: usize,
    pub block: usize,
    pub word: u64,
    pub reference_lane: usize,
    pub reference_block: usize,
}

type Given = Box<dyn FnMut(u64) -> u64>;
type Told = Box<dyn FnMut(Seen)>;

std::thread_local! {
    static HOOKS: RefCell<(Given, Told)> = RefCell::new((Box::new(|word| word), Box::new(|_| ())));
}

/// From now on, `given` chooses the words of this thread and `told` hears of the references.
pub fn install(given: Given, told: Told) {
    HOOKS.with(|hooks| *hooks.borrow_mut() = (given, told));
}

/// The word that stands in for the random one.
pub(crate) fn given(word: u64) -> u64 {
    HOOKS.with(|hooks| (hooks.borrow_mut().0)(word))
}

/// Tells of a reference.
pub(crate) fn seen(seen: Seen) {
    HOOKS.with(|hooks| (hooks.borrow_mut().1)(seen));
}
