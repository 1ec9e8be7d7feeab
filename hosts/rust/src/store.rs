//! The store: a state and a heap, lent to the library at each call. Every unsafe block of the crate is here, or in a call that `lent` or `shown` below serves.

use crate::refusal::{accepted, known};
use crate::tables::{lend, region_store_layout, Refusal, State, LAYOUT, STATE_BYTES};
use std::cell::Cell;
use std::fmt;
use std::marker::PhantomData;
use std::sync::OnceLock;

/// Words of a page.
pub(crate) const PAGE: usize = 64;

/// The most pages that a heap can have.
pub(crate) const PAGES: u32 = 256;

/// A store: its state and its heap.
///
/// Calls that only ask take `&self`, those that act `&mut self`. A copy made by `clone` is a store of its own with the same state and heap.
//
// Under `&self` the library is lent both only to read, so that parts of the heap may be handed out meanwhile; what writes them has `&mut self`.
pub struct Store {
    state: Box<State>,
    heap: Box<[u32]>,
    /// One caller at a time: this is not Sync.
    one_caller: PhantomData<Cell<()>>,
}

// A state has no padding, and is aligned as its widest numbers are.
const _: () = assert!(size_of::<State>() == STATE_BYTES && align_of::<State>() == 4);

// A store may move to another thread.
const _: fn() = || {
    fn sent<T: Send>() {}
    sent::<Store>();
};

// A store is not shared between threads: were it Sync, two of these implementations would fit, and `_` would not be known.
const _: fn() = || {
    trait Shared<A> {
        fn is() {}
    }
    struct WithSync;
    impl<T> Shared<()> for T {}
    impl<T: Sync> Shared<WithSync> for T {}
    let _ = <Store as Shared<_>>::is;
};

impl Store {
    /// Makes a store with a heap of `pages` pages, 64 words each: every word is 0, every page free, and region 1, the permanent one, lives.
    ///
    /// No heap of more than 257 pages is taken from the system, whatever the number is: 257 are as wrong as any number above.
    ///
    /// # Errors
    ///
    /// - 1 [`Refusal::HeapLength`], where `pages` is not 1 to 256. Then there is no store.
    ///
    /// # Panics
    ///
    /// If the library that was linked has another layout than this crate.
    ///
    /// # Examples
    ///
    /// ```
    /// use region_store::{Refusal, Store};
    ///
    /// assert_eq!(Store::new(4).unwrap().pages(), 4);
    /// assert_eq!(Store::new(0).unwrap_err(), Refusal::HeapLength);
    /// assert_eq!(Store::new(257).unwrap_err(), Refusal::HeapLength);
    /// ```
    pub fn new(pages: u32) -> Result<Store, Refusal> {
        let pages = pages.min(PAGES + 1);
        let mut store = Store::with_memory(State::ZEROS, vec![0; PAGE * pages as usize]);
        accepted(store.make())?;
        Ok(store)
    }

    /// A store with this memory, whatever it holds.
    pub(crate) fn with_memory(state: State, heap: Vec<u32>) -> Store {
        check_layout();
        Store {
            state: Box::new(state),
            heap: heap.into_boxed_slice(),
            one_caller: PhantomData,
        }
    }

    /// Makes a call by its number and gives the refusal (0: accepted) and four values, 0 where there is none.
    ///
    /// The call takes its numbers from `a`, `b`, `c`, `d`, from the left, declare its marks and delete_all its names from `list`; the rest is ignored. So the filler is `a` of drop and of delete_all, `b` of delete, `c` of hand_back, `d` of set_pointer. Of view this gives the number alone; [`Store::view`] gives the part. Numbers that are no call's, 1 among them, are refused by 24.
    ///
    /// ```
    /// # use region_store::{Refusal, Store};
    /// # fn main() -> Result<(), Refusal> {
    /// let mut store = Store::new(1)?;
    /// assert_eq!(store.call(2, 0, 0, 0, 0, &[1, 0]), [0, 1, 0, 0, 0]); // declare
    /// assert_eq!(store.call(5, 9, 0, 0, 0, &[]), [8, 0, 0, 0, 0]); // push, refused
    /// assert_eq!(store.call(99, 0, 0, 0, 0, &[])[0], Refusal::NoCall.number());
    /// # Ok(())
    /// # }
    /// ```
    pub fn call(&mut self, number: u32, a: u32, b: u32, c: u32, d: u32, list: &[u32]) -> [u32; 5] {
        self.act(number, [a, b, c, d], list)
    }

    /// What [`Store::view`] gives.
    pub(crate) fn part(&self, slot: u32) -> Result<&[u32], Refusal> {
        let mut out = [0; 3];
        // SAFETY: see `Store::shown`; `out` is another buffer.
        unsafe {
            let (state, heap, words) = self.shown();
            lend!(const region_store_view, state, heap, words, slot, &raw mut out);
        }
        let [refusal, place, length] = out;
        if refusal != 0 {
            return Err(known(refusal));
        }
        Ok(&self.heap()[place as usize..][..length as usize])
    }

    /// What [`Store::audit`] gives, as a reply.
    pub(crate) fn audited(&self) -> [u32; 5] {
        let mut reply = [0; 5];
        // SAFETY: see `Store::shown`; `reply` is another buffer.
        unsafe {
            let (state, heap, words) = self.shown();
            lend!(const region_store_audit, state, heap, words, &raw mut reply);
        }
        reply
    }

    /// The words of the heap: 64 for each page.
    #[must_use]
    pub fn heap(&self) -> &[u32] {
        &self.heap
    }

    /// How many pages the heap has, 1 to 256.
    #[must_use]
    pub fn pages(&self) -> u32 {
        (self.heap.len() / PAGE) as u32
    }

    /// The bytes of the state as a file has them, little-endian: its numbers, then its arrays. Two stores are alike, in every answer to come, where these bytes and their heaps are equal.
    #[must_use]
    pub fn state_bytes(&self) -> Vec<u8> {
        let mut bytes = Vec::with_capacity(STATE_BYTES);
        self.state.write(&mut bytes);
        bytes
    }

    /// The state and the heap, to be lent to a function of the library for one call.
    ///
    /// That is right: the pointers are this store's own, aligned and not null (also those of an empty heap), with the heap's true length; the arrays of the state are different members of it; `&mut self` says that no other reference to state or heap lives, so that a list is none of the heap, and what is written besides, a value or a reply, is a local of the caller.
    pub(crate) fn lent(&mut self) -> (&mut State, *mut u32, usize) {
        let words = self.heap.len();
        (&mut self.state, self.heap.as_mut_ptr(), words)
    }

    /// The state and the heap, to be lent to a function of the library that only reads them, for one call: right for the same reasons, and nothing writes either while `&self` lives.
    pub(crate) fn shown(&self) -> (&State, *const u32, usize) {
        (&self.state, self.heap.as_ptr(), self.heap.len())
    }

    fn make(&mut self) -> [u32; 5] {
        let mut reply = [0; 5];
        let (state, heap, words) = self.lent();
        // SAFETY: see `Store::lent`.
        unsafe { lend!(mut region_store_make, state, heap, words, &raw mut reply) };
        reply
    }

    /// Makes any call by its number.
    pub(crate) fn act(&mut self, number: u32, numbers: [u32; 4], list: &[u32]) -> [u32; 5] {
        let [a, b, c, d] = numbers;
        let mut reply = [0; 5];
        let (state, heap, words) = self.lent();
        let (list, count) = (list.as_ptr(), list.len());
        // SAFETY: see `Store::lent`; `list` has its own length, is not null where it is empty either, and is only read.
        unsafe {
            lend!(
                mut region_store_call,
                state,
                heap,
                words,
                number,
                a,
                b,
                c,
                d,
                list,
                count,
                &raw mut reply,
            );
        }
        reply
    }
}

impl Clone for Store {
    fn clone(&self) -> Store {
        Store::with_memory(State::clone(&self.state), self.heap.to_vec())
    }
}

impl fmt::Debug for Store {
    fn fmt(&self, f: &mut fmt::Formatter<'_>) -> fmt::Result {
        f.debug_struct("Store")
            .field("pages", &self.pages())
            .field("totals", &self.totals())
            .finish_non_exhaustive()
    }
}

/// Compares the library's layout with that of this crate, once.
fn check_layout() {
    static CHECKED: OnceLock<()> = OnceLock::new();
    CHECKED.get_or_init(|| {
        let mut layout = [0; LAYOUT.len() + 1];
        // SAFETY: the library writes no more numbers than `layout` has room for.
        let count = unsafe { region_store_layout(layout.as_mut_ptr(), layout.len()) };
        let told = &layout[..count.min(layout.len())];
        assert!(
            told == LAYOUT,
            "the library region_store that was linked has another layout than this crate: it tells {told:?}, where {LAYOUT:?} is wanted; build both from one version (`hosts/build`)"
        );
    });
}
