use crate::pass::Pass;
use crate::shard_id::ShardId;
use std::fmt;
use std::marker::PhantomData;
use std::mem::ManuallyDrop;
use std::ops::{Deref, DerefMut};
use std::thread;

/// The shard's state at the end of an admission.
#[derive(Clone, Copy, Debug, PartialEq, Eq)]
pub struct Front {
    /// The shard.
    pub shard: ShardId,
    /// The shard's generation from then on.
    pub generation: u64,
}

/// The right to a shard's body, which nobody else has meanwhile. The admission ends when the permit is dropped.
///
/// A panic drops the permit too. The body then stays as the panic left it, and others are admitted to it. The shard is
/// *poisoned* from then on: [`Permit::is_poisoned`] tells so, until [`Permit::clear_poison`]. Unlike a poisoned
/// [`Mutex`](std::sync::Mutex), a poisoned shard refuses nobody.
///
/// A permit derefs to the body. Its own functions are associated functions, for example
/// [`Permit::finish(permit)`](Permit::finish), so they hide none of the body's methods.
#[must_use = "the admission ends where the permit is dropped"]
pub struct Permit<'a, T> {
    pass: &'a mut Pass<T>,
    shard: ShardId,
    body: *mut T,
    /// Whether the thread was panicking already at the admission. Then a panic is not the permit's.
    was_panicking: bool,
    borrows: PhantomData<&'a mut T>,
}

// SAFETY: a permit borrows the body and the pass, which is used only through `&mut Permit`.
unsafe impl<T: Send> Send for Permit<'_, T> {}

// SAFETY: `&Permit` gives access only to `&T` and to numbers.
unsafe impl<T: Send + Sync> Sync for Permit<'_, T> {}

impl<'a, T> Permit<'a, T> {
    /// Returns the permit of a pass that is admitted to the shard. The body has this number.
    #[inline(always)]
    pub(crate) fn of(pass: &'a mut Pass<T>, shard: ShardId, number: u64) -> Permit<'a, T> {
        let body = pass.shared.body(number);
        Permit {
            pass,
            shard,
            body,
            was_panicking: thread::panicking(),
            borrows: PhantomData,
        }
    }
}

impl<T> Permit<'_, T> {
    /// Returns the permit's shard.
    #[must_use]
    pub fn shard(permit: &Self) -> ShardId {
        permit.shard
    }

    /// Returns the fencing token of this admission. Each later admission to the shard has a greater token: this is
    /// proved if its pass has seen what the earlier one had, by a [`Note`](crate::Note), and otherwise tested. So a
    /// store that keeps the greatest token that it saw, and refuses smaller ones, refuses late writes. If a write is
    /// refused, treat it as an error: nothing was written. A board's tokens begin after the number given to
    /// [`Builder::after`](crate::Builder::after).
    ///
    /// ```
    /// # use durkenzo::{Board, Mode, Permit, ServerId, ShardId};
    /// let board = Board::builder().servers(1).after(200).build(vec![0u64])?;
    /// let (shard, server) = (ShardId::new(0)?, ServerId::new(1)?);
    /// board.control().assign(shard, server)?;
    /// let mut pass = board.pass(server)?;
    /// let earlier = Permit::token(&mut pass.admit(shard, Mode::Direct)?);
    /// assert!(earlier > 200);
    /// assert!(Permit::token(&mut pass.admit(shard, Mode::Direct)?) > earlier);
    /// # Ok::<(), Box<dyn std::error::Error>>(())
    /// ```
    #[must_use]
    pub fn token(permit: &mut Self) -> u64 {
        let token = permit.pass.seat.token();
        token.expect("the pass of a permit holds it")
    }

    /// Returns the shard's generation at this admission. It begins at 0 in each board, so it must not be used as a
    /// fencing token: use [`Permit::token`].
    #[must_use]
    pub fn generation(permit: &mut Self) -> u64 {
        let record = permit.pass.look(permit.shard);
        record.expect("the shard of a permit is there").generation
    }

    /// Returns whether a thread panicked during an admission to the shard, and nobody has cleared that since. The body
    /// may then be half changed.
    ///
    /// ```
    /// # use durkenzo::{Board, Mode, Permit, ServerId, ShardId};
    /// # use std::panic::catch_unwind;
    /// let board = Board::builder().build(vec![vec![1, 2]])?;
    /// let (shard, server) = (ShardId::new(0)?, ServerId::new(1)?);
    /// board.control().assign(shard, server)?;
    /// let mut pass = board.pass(server)?;
    /// let caught = catch_unwind(|| {
    ///     let mut pass = board.pass(server).unwrap();
    ///     let mut body = pass.admit(shard, Mode::Direct).unwrap();
    ///     body.clear();
    ///     panic!("before the new items came");
    /// });
    /// assert!(caught.is_err());
    /// let mut body = pass.admit(shard, Mode::Direct)?;
    /// assert!(Permit::is_poisoned(&body));
    /// body.push(1);
    /// Permit::clear_poison(&mut body);
    /// assert!(!Permit::is_poisoned(&body));
    /// # Ok::<(), Box<dyn std::error::Error>>(())
    /// ```
    #[must_use]
    pub fn is_poisoned(permit: &Self) -> bool {
        permit.pass.shared.is_poisoned(permit.shard)
    }

    /// Clears the shard's poison. Call this once the body is in order again.
    pub fn clear_poison(permit: &mut Self) {
        permit.pass.shared.set_poisoned(permit.shard, false);
    }

    /// Ends the admission, and returns the shard's state after it.
    pub fn finish(permit: Self) -> Front {
        ManuallyDrop::new(permit).end()
    }

    #[inline(always)]
    fn end(&mut self) -> Front {
        if !self.was_panicking && thread::panicking() {
            self.poison();
        }
        Front {
            shard: self.shard,
            generation: self.pass.seat.finish(self.shard),
        }
    }

    #[cold]
    #[inline(never)]
    fn poison(&self) {
        self.pass.shared.set_poisoned(self.shard, true);
    }
}

impl<T> fmt::Debug for Permit<'_, T> {
    fn fmt(&self, f: &mut fmt::Formatter<'_>) -> fmt::Result {
        f.debug_struct("Permit")
            .field("shard", &self.shard)
            .finish_non_exhaustive()
    }
}

impl<T> Drop for Permit<'_, T> {
    fn drop(&mut self) {
        self.end();
    }
}

impl<T> Deref for Permit<'_, T> {
    type Target = T;

    fn deref(&self) -> &T {
        // SAFETY: the body's number is the one that the board was given for the shard, no other permit of the shard
        // lives, and the pass keeps the bodies alive.
        unsafe { &*self.body }
    }
}

impl<T> DerefMut for Permit<'_, T> {
    fn deref_mut(&mut self) -> &mut T {
        // SAFETY: as in `deref`.
        unsafe { &mut *self.body }
    }
}
