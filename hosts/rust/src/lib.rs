//! A store of objects in regions, with exact counts.
//!
//! Regions lie inside regions; an object is reached only through slots of a stack of frames; a region other than the permanent one can be deleted exactly when no subregion of it lives and no pointer from outside leads into it. Counts are exact, and one list of calls leaves one memory, word by word, on whichever machine it is replayed. The code of the calls is proved; this crate lends it a memory and gives its answers as Rust values. The README of the repository has the words, and what is proved.
//!
//! # A first example
//!
//! ```
//! use region_store::{Refusal, Store};
//!
//! # fn main() -> Result<(), Refusal> {
//! let mut store = Store::new(1)?; // one page of 64 words
//! let clue = store.declare(&[1, 0])?; // a kind of object: a free pointer and a number
//! let round = store.new_region()?;
//! store.push(1)?; // a frame with one slot
//! store.allocate(0, round, clue)?; // a clue of the round, in slot 0
//! store.put(0, 1, 17)?;
//! assert_eq!(store.get(0, 1)?, 17);
//!
//! let refused = store.delete(round, 0).unwrap_err(); // slot 0 leads into the round
//! assert_eq!(refused, Refusal::OutsidePointer);
//! assert_eq!(refused.number(), 19);
//! println!("{refused}");
//!
//! store.clear(0)?;
//! assert_eq!(store.delete(round, 0)?, 1); // one page is free again
//! assert!(store.audit());
//! # Ok(())
//! # }
//! ```
//!
//! # Calls and refusals
//!
//! Each call is a method of [`Store`]. Wrong arguments, of whatever numbers, are refused: "refused" means a number and nothing changed, neither state nor heap; where [`Store::new`] is refused there is no store. The methods give it as [`Refusal`], the first in the method's list whose reason holds. [`Store::call`] makes any call by its number.
//!
//! [`Refusal::WrongHeap`] stands in most lists, since the library asks that first; a [`Store`] keeps its state and its heap together, so it never comes here. [`Refusal::NoCall`] comes from [`Store::call`] alone.
//!
//! The last argument of [`delete`](Store::delete), [`delete_all`](Store::delete_all), [`set_pointer`](Store::set_pointer), [`drop`](Store::drop) and [`hand_back`](Store::hand_back) is the filler that the call acts for, 0 to 3: 0 where one program has the store to itself.
//!
//! # What a host must keep to, and what sees to it
//!
//! Whatever bytes the memory holds, every call ends, touches only what it is lent, and answers. This is proved of the library, if its host keeps to this:
//!
//! | a host | here |
//! |---|---|
//! | lends aligned pointers, none of them null, also where a length is 0 | Rust's references and boxes are so |
//! | lends buffers that do not overlap, with their true lengths | a [`Store`] owns its state and its heap; a list is another borrow than the `&mut` of a call that writes |
//! | has one caller at a time | calls that act take `&mut self`, and [`Store`] is not [`Sync`]; it is [`Send`], so a store may move to another thread |
//! | works with the library that it was written for | the layout is compared when a store is first made or loaded, and another one is a panic; so is a refusal whose number this crate does not know |
//! | has the stack that a call takes, up to 21 KiB, and for all methods but audit and delete_all less than 4, beside what a thread takes by itself | the main thread has some MiB, and a thread of [`std::thread`] 2 MiB, unless told otherwise; [`Store::from_file`] takes up to 48 KiB |
//! | keeps no part of the heap over a call that writes it | [`Store::view`] and [`Store::heap`] borrow the store: while one is held, only calls that ask can be made |
//!
//! Two threads cannot ask one store at once:
//!
//! ```compile_fail,E0277
//! fn shared<T: Sync>() {}
//! shared::<region_store::Store>();
//! ```
//!
//! # Saved stores
//!
//! [`Store::save`] writes a store to a file, and [`Store::from_file`] reads it back. The file is the same for every language. A load tests the sum of the file's bytes, and audits the memory. Both are needed: the audit is no checksum, since data words and entries not in use are not its business, and a sum is no audit, since anyone can write one.
//!
//! # The library
//!
//! `hosts/build` builds `libregion_store.a` in `target/hosts` of the repository, where this crate looks for it; the environment variable `REGION_STORE_LIB` names another folder. It is for x86-64 Linux.

#![deny(missing_docs)]
#![deny(unsafe_op_in_unsafe_fn)]

mod calls;
mod file;
mod numbers;
mod refusal;
mod store;
mod tables;

pub use calls::*;
pub use store::Store;
pub use tables::{NotLoaded, NotSaved, Refusal, VERSION};
