//! Lent buffers: full of rubbish, between guard words.

use std::fmt::Debug;

const GUARD: usize = 32;

/// A number a buffer can be made of.
pub trait Word: Copy + Eq + Debug + Default {
    /// What fills a buffer before it is lent: nothing that could pass for right.
    const RUBBISH: Self;
    /// What stands before and behind it.
    const GUARD: Self;
}

impl Word for u8 {
    const RUBBISH: u8 = 0xA5;
    const GUARD: u8 = 0x5C;
}

impl Word for u16 {
    const RUBBISH: u16 = 0xA5A7;
    const GUARD: u16 = 0x5C5D;
}

impl Word for u32 {
    const RUBBISH: u32 = 0xA5A7_A9AB;
    const GUARD: u32 = 0x5C5D_5E5F;
}

/// A buffer of some length to lend once.
pub struct Lent<T> {
    all: Vec<T>,
}

impl<T: Word> Lent<T> {
    pub fn new(len: usize) -> Lent<T> {
        let mut all = vec![T::GUARD; len + 2 * GUARD];
        all[GUARD..GUARD + len].fill(T::RUBBISH);
        Lent { all }
    }

    pub fn part(&mut self) -> &mut [T] {
        let end = self.all.len() - GUARD;
        &mut self.all[GUARD..end]
    }

    /// Panics unless the buffer holds exactly this and its guards are whole.
    pub fn must_hold(&mut self, what: &str, expected: &[T], context: &dyn Fn() -> String) {
        let end = self.all.len() - GUARD;
        let whole = self.all[..GUARD].iter().chain(&self.all[end..]).all(|w| *w == T::GUARD);
        assert!(whole, "{what}: a word outside the lent part was changed; {}", context());
        let got = self.part();
        if got != expected {
            let at = (0..expected.len()).find(|i| got[*i] != expected[*i]).unwrap();
            panic!(
                "{what}: at {at} of {} stands {:?}, expected {:?}; {}",
                expected.len(),
                got[at],
                expected[at],
                context()
            );
        }
    }

    /// Panics unless the buffer is all zero and its guards are whole.
    pub fn must_be_zero(&mut self, what: &str, context: &dyn Fn() -> String) {
        let len = self.part().len();
        self.must_hold(what, &vec![T::default(); len], context);
    }
}
