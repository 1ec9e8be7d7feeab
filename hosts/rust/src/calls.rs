//! A method for each call.

use crate::refusal::{accepted, passed};
use crate::store::Store;
use crate::tables::*;

// hosts/tables: begin calls
/// What [`Store::about`] gives: the values of call 19, in their order.
///
/// Gives the region and the kind of the object that a slot leads to, 0 and 0 for null.
#[derive(Clone, Copy, Debug, PartialEq, Eq)]
pub struct About {
    /// The name of the object's region, 0 for null.
    pub region: u32,
    /// The number of its kind, 0 for null.
    pub kind: u32,
}

/// What [`Store::report`] gives: the values of call 20, in their order.
///
/// Gives a region's stored count, its outside pointers, its pages, and the live subregions directly below it.
#[derive(Clone, Copy, Debug, PartialEq, Eq)]
pub struct Report {
    /// The stored count.
    pub count: u32,
    /// Its outside pointers.
    pub outside: u32,
    /// The pages that it holds.
    pub pages: u32,
    /// The live subregions directly below it.
    pub subregions: u32,
}

/// What [`Store::totals`] gives: the values of call 21, in their order.
///
/// Gives how many pages are free, regions live, frames stand and frames are counted.
#[derive(Clone, Copy, Debug, PartialEq, Eq)]
pub struct Totals {
    /// The pages that are free.
    pub free_pages: u32,
    /// The regions that live, region 1 among them.
    pub regions: u32,
    /// The frames that stand.
    pub frames: u32,
    /// The frames, from the lowest on, that are counted.
    pub counted: u32,
}

/// What [`Store::locate`] gives: the values of call 25, in their order.
///
/// Gives the page of the object that a slot leads to and the word of its header there, 256 and 0 for null.
#[derive(Clone, Copy, Debug, PartialEq, Eq)]
pub struct Locate {
    /// The page on which the object lies, from 0 on, 256 for null.
    pub page: u32,
    /// The word of that page at which its header stands, from 0 on, 0 for null.
    pub word: u32,
}

/// The calls.
impl Store {
    /// Declares a kind of object by a mark for each word: 0 data, 1 free pointer, 2 same region, 3 up, 4 forever.
    ///
    /// Call 2; its value is `kind`, a kind's number, from 1 on.
    ///
    /// # Arguments
    ///
    /// - `marks`, a mark for each of the 1 to 16 words of an object of the kind
    ///
    /// # Errors
    ///
    /// The first of these whose reason holds:
    /// - 21 [`Refusal::WrongHeap`], the heap's length is not the one made, or none was made, since make refused
    /// - 11 [`Refusal::WrongMarks`], no mark, more than 16 marks, or one above 4
    /// - 10 [`Refusal::KindsFull`], 16 kinds stand, the most there can be
    ///
    /// # Examples
    ///
    /// ```
    /// use region_store::{Refusal, Store};
    /// # fn main() -> Result<(), Refusal> {
    /// let mut store = Store::new(1)?;
    /// let clue = store.declare(&[1, 0])?; // a free pointer and a number
    /// assert_eq!(clue, 1);
    /// assert_eq!(store.declare(&[5]), Err(Refusal::WrongMarks));
    /// # Ok(())
    /// # }
    /// ```
    #[inline]
    pub fn declare(&mut self, marks: &[u32]) -> Result<u32, Refusal> {
        let (s, heap, words) = self.lent();
        let [_, _, declared, _, made] = &mut s.numbers;
        let mut v = 0;
        // SAFETY: see `Store::lent`.
        let refusal = unsafe {
            region_store_declare(
                *made,
                declared,
                &mut s.sizes,
                &mut s.marks,
                heap,
                words,
                marks.as_ptr(),
                marks.len(),
                &mut v,
            )
        };
        passed(refusal)?;
        Ok(v)
    }

    /// Makes a region that lies in no other, and gives its name.
    ///
    /// Call 3; its value is `region`, a region's name, a number from 1 on.
    ///
    /// # Errors
    ///
    /// The first of these whose reason holds:
    /// - 21 [`Refusal::WrongHeap`], the heap's length is not the one made, or none was made, since make refused
    /// - 4 [`Refusal::RegionsFull`], 64 regions live, the most there can be
    /// - 5 [`Refusal::NamesOut`], name 1,000,000 was given, the last there is
    ///
    /// # Examples
    ///
    /// ```
    /// use region_store::{Refusal, Store};
    /// # fn main() -> Result<(), Refusal> {
    /// let mut store = Store::new(1)?;
    /// assert_eq!(store.new_region()?, 2);
    /// assert_eq!(store.new_region()?, 3);
    /// # Ok(())
    /// # }
    /// ```
    #[inline]
    pub fn new_region(&mut self) -> Result<u32, Refusal> {
        let (s, heap, words) = self.lent();
        let [_, _, _, given, made] = &mut s.numbers;
        let mut v = 0;
        // SAFETY: see `Store::lent`.
        let refusal = unsafe {
            region_store_new_region(
                *made,
                given,
                &mut s.names,
                &mut s.parents,
                &mut s.levels,
                &mut s.shares,
                &mut s.newest,
                &mut s.oldest,
                heap,
                words,
                &mut v,
            )
        };
        passed(refusal)?;
        Ok(v)
    }

    /// Makes a region inside a region, and gives its name.
    ///
    /// Call 4; its value is `region`, a region's name, a number from 1 on.
    ///
    /// # Arguments
    ///
    /// - `region`, a region's name, a number from 1 on
    ///
    /// # Errors
    ///
    /// The first of these whose reason holds:
    /// - 21 [`Refusal::WrongHeap`], the heap's length is not the one made, or none was made, since make refused
    /// - 2 [`Refusal::NoRegion`], no live region has that name
    /// - 20 [`Refusal::TooDeep`], the region above is at level 16, the deepest
    /// - 4 [`Refusal::RegionsFull`], 64 regions live, the most there can be
    /// - 5 [`Refusal::NamesOut`], name 1,000,000 was given, the last there is
    ///
    /// # Examples
    ///
    /// ```
    /// use region_store::{Refusal, Store};
    /// # fn main() -> Result<(), Refusal> {
    /// let mut store = Store::new(1)?;
    /// let round = store.new_region()?;
    /// let grid = store.subregion(round)?;
    /// assert_eq!(store.report(round)?.subregions, 1);
    /// assert_eq!(store.delete(round, 0), Err(Refusal::SubregionLives));
    /// store.delete(grid, 0)?;
    /// store.delete(round, 0)?;
    /// # Ok(())
    /// # }
    /// ```
    #[inline]
    pub fn subregion(&mut self, region: u32) -> Result<u32, Refusal> {
        let (s, heap, words) = self.lent();
        let [_, _, _, given, made] = &mut s.numbers;
        let mut v = 0;
        // SAFETY: see `Store::lent`.
        let refusal = unsafe {
            region_store_subregion(
                *made,
                given,
                &mut s.names,
                &mut s.parents,
                &mut s.levels,
                &mut s.shares,
                &mut s.newest,
                &mut s.oldest,
                heap,
                words,
                region,
                &mut v,
            )
        };
        passed(refusal)?;
        Ok(v)
    }

    /// Puts a frame of 1 to 8 null slots on the stack, and gives how many frames stand.
    ///
    /// Call 5; its value is `frames`.
    ///
    /// # Arguments
    ///
    /// - `slots`, how many slots the frame has, 1 to 8
    ///
    /// # Errors
    ///
    /// The first of these whose reason holds:
    /// - 21 [`Refusal::WrongHeap`], the heap's length is not the one made, or none was made, since make refused
    /// - 8 [`Refusal::SlotCount`], a frame has 1 to 8 slots
    /// - 7 [`Refusal::FramesFull`], 32 frames stand, the most there can be
    ///
    /// # Examples
    ///
    /// ```
    /// use region_store::{Refusal, Store};
    /// # fn main() -> Result<(), Refusal> {
    /// let mut store = Store::new(1)?;
    /// assert_eq!(store.push(3)?, 1);
    /// assert_eq!(store.push(9), Err(Refusal::SlotCount));
    /// # Ok(())
    /// # }
    /// ```
    #[inline]
    pub fn push(&mut self, slots: u32) -> Result<u32, Refusal> {
        let (s, heap, words) = self.lent();
        let [standing, _, _, _, made] = &mut s.numbers;
        let mut v = 0;
        // SAFETY: see `Store::lent`.
        let refusal = unsafe {
            region_store_push(
                *made,
                standing,
                &mut s.widths,
                &mut s.slots,
                heap,
                words,
                slots,
                &mut v,
            )
        };
        passed(refusal)?;
        Ok(v)
    }

    /// Takes the top frame off the stack, and gives how many frames stand.
    ///
    /// Call 6; its value is `frames`.
    ///
    /// # Arguments
    ///
    /// - `filler`, whom the call acts for, 0 to 3; 0 where one program has the store to itself
    ///
    /// # Errors
    ///
    /// The first of these whose reason holds:
    /// - 21 [`Refusal::WrongHeap`], the heap's length is not the one made, or none was made, since make refused
    /// - 23 [`Refusal::NoFiller`], the filler is above 3
    /// - 6 [`Refusal::NoFrame`], no frame, or fewer than the two that the call needs
    #[inline]
    pub fn drop(&mut self, filler: u32) -> Result<u32, Refusal> {
        let (s, heap, words) = self.lent();
        let [standing, counted, _, _, made] = &mut s.numbers;
        let mut v = 0;
        // SAFETY: see `Store::lent`.
        let refusal = unsafe {
            region_store_drop(
                *made,
                standing,
                counted,
                &s.widths,
                &s.slots,
                &mut s.shares,
                &s.owners,
                heap,
                words,
                filler,
                &mut v,
            )
        };
        passed(refusal)?;
        Ok(v)
    }

    /// Takes the top frame off the stack, and puts what one of its slots held into a slot of the frame beneath it.
    ///
    /// Call 7; its value is `frames`.
    ///
    /// # Arguments
    ///
    /// - `slot`, a slot of the top frame, from 0 on
    /// - `beneath`, a slot of the frame beneath the top one, from 0 on
    /// - `filler`, whom the call acts for, 0 to 3; 0 where one program has the store to itself
    ///
    /// # Errors
    ///
    /// The first of these whose reason holds:
    /// - 21 [`Refusal::WrongHeap`], the heap's length is not the one made, or none was made, since make refused
    /// - 23 [`Refusal::NoFiller`], the filler is above 3
    /// - 6 [`Refusal::NoFrame`], no frame, or fewer than the two that the call needs
    /// - 9 [`Refusal::NoSlot`], a slot named is not there
    #[inline]
    pub fn hand_back(&mut self, slot: u32, beneath: u32, filler: u32) -> Result<u32, Refusal> {
        let (s, heap, words) = self.lent();
        let [standing, counted, _, _, made] = &mut s.numbers;
        let mut v = 0;
        // SAFETY: see `Store::lent`.
        let refusal = unsafe {
            region_store_hand_back(
                *made,
                standing,
                counted,
                &s.widths,
                &mut s.slots,
                &mut s.shares,
                &s.owners,
                heap,
                words,
                slot,
                beneath,
                filler,
                &mut v,
            )
        };
        passed(refusal)?;
        Ok(v)
    }

    /// Makes an object of a kind in a region, its words 0 or null, and leads a slot to it.
    ///
    /// Call 8; it has no value.
    ///
    /// # Arguments
    ///
    /// - `slot`, a slot of the top frame, from 0 on
    /// - `region`, a region's name, a number from 1 on
    /// - `kind`, a kind's number, from 1 on
    ///
    /// # Errors
    ///
    /// The first of these whose reason holds:
    /// - 21 [`Refusal::WrongHeap`], the heap's length is not the one made, or none was made, since make refused
    /// - 6 [`Refusal::NoFrame`], no frame, or fewer than the two that the call needs
    /// - 9 [`Refusal::NoSlot`], a slot named is not there
    /// - 2 [`Refusal::NoRegion`], no live region has that name
    /// - 12 [`Refusal::NoKind`], no such kind
    /// - 13 [`Refusal::NoPage`], the region has no page, or the object does not fit its newest one, and no page is free
    ///
    /// # Examples
    ///
    /// ```
    /// use region_store::{Refusal, Store};
    /// # fn main() -> Result<(), Refusal> {
    /// let mut store = Store::new(1)?;
    /// let kind = store.declare(&[0])?;
    /// store.push(1)?;
    /// store.allocate(0, 1, kind)?;
    /// assert_eq!(store.get(0, 0)?, 0);
    /// # Ok(())
    /// # }
    /// ```
    #[inline]
    pub fn allocate(&mut self, slot: u32, region: u32, kind: u32) -> Result<(), Refusal> {
        let (s, heap, words) = self.lent();
        let [standing, _, declared, _, made] = &mut s.numbers;
        // SAFETY: see `Store::lent`.
        let refusal = unsafe {
            region_store_allocate(
                *made,
                *standing,
                *declared,
                &s.widths,
                &mut s.slots,
                &s.sizes,
                &s.names,
                &mut s.newest,
                &mut s.oldest,
                &mut s.owners,
                &mut s.taken,
                heap,
                words,
                slot,
                region,
                kind,
            )
        };
        passed(refusal)
    }

    /// Leads a slot to the first object of a region, or makes it null where there is none.
    ///
    /// Call 9; it has no value.
    ///
    /// # Arguments
    ///
    /// - `slot`, a slot of the top frame, from 0 on
    /// - `region`, a region's name, a number from 1 on
    ///
    /// # Errors
    ///
    /// The first of these whose reason holds:
    /// - 21 [`Refusal::WrongHeap`], the heap's length is not the one made, or none was made, since make refused
    /// - 6 [`Refusal::NoFrame`], no frame, or fewer than the two that the call needs
    /// - 9 [`Refusal::NoSlot`], a slot named is not there
    /// - 2 [`Refusal::NoRegion`], no live region has that name
    #[inline]
    pub fn first(&mut self, slot: u32, region: u32) -> Result<(), Refusal> {
        let (s, heap, words) = self.lent();
        let [standing, _, _, _, made] = &mut s.numbers;
        // SAFETY: see `Store::lent`.
        let refusal = unsafe {
            region_store_first(
                *made,
                *standing,
                &s.widths,
                &mut s.slots,
                &s.names,
                &s.oldest,
                heap,
                words,
                slot,
                region,
            )
        };
        passed(refusal)
    }

    /// Leads a slot to where another one leads.
    ///
    /// Call 10; it has no value.
    ///
    /// # Arguments
    ///
    /// - `from`, the slot of the top frame that is read
    /// - `to`, the slot of the top frame that is led there
    ///
    /// # Errors
    ///
    /// The first of these whose reason holds:
    /// - 21 [`Refusal::WrongHeap`], the heap's length is not the one made, or none was made, since make refused
    /// - 6 [`Refusal::NoFrame`], no frame, or fewer than the two that the call needs
    /// - 9 [`Refusal::NoSlot`], a slot named is not there
    #[inline]
    pub fn copy(&mut self, from: u32, to: u32) -> Result<(), Refusal> {
        let (s, heap, words) = self.lent();
        let [standing, _, _, _, made] = &mut s.numbers;
        // SAFETY: see `Store::lent`.
        let refusal = unsafe {
            region_store_copy(
                *made,
                *standing,
                &s.widths,
                &mut s.slots,
                heap,
                words,
                from,
                to,
            )
        };
        passed(refusal)
    }

    /// Leads a slot to where a slot of the frame beneath leads.
    ///
    /// Call 11; it has no value.
    ///
    /// # Arguments
    ///
    /// - `beneath`, a slot of the frame beneath the top one, from 0 on
    /// - `slot`, a slot of the top frame, from 0 on
    ///
    /// # Errors
    ///
    /// The first of these whose reason holds:
    /// - 21 [`Refusal::WrongHeap`], the heap's length is not the one made, or none was made, since make refused
    /// - 6 [`Refusal::NoFrame`], no frame, or fewer than the two that the call needs
    /// - 9 [`Refusal::NoSlot`], a slot named is not there
    #[inline]
    pub fn fetch(&mut self, beneath: u32, slot: u32) -> Result<(), Refusal> {
        let (s, heap, words) = self.lent();
        let [standing, _, _, _, made] = &mut s.numbers;
        // SAFETY: see `Store::lent`.
        let refusal = unsafe {
            region_store_fetch(
                *made,
                *standing,
                &s.widths,
                &mut s.slots,
                heap,
                words,
                beneath,
                slot,
            )
        };
        passed(refusal)
    }

    /// Makes a slot null.
    ///
    /// Call 12; it has no value.
    ///
    /// # Arguments
    ///
    /// - `slot`, a slot of the top frame, from 0 on
    ///
    /// # Errors
    ///
    /// The first of these whose reason holds:
    /// - 21 [`Refusal::WrongHeap`], the heap's length is not the one made, or none was made, since make refused
    /// - 6 [`Refusal::NoFrame`], no frame, or fewer than the two that the call needs
    /// - 9 [`Refusal::NoSlot`], a slot named is not there
    #[inline]
    pub fn clear(&mut self, slot: u32) -> Result<(), Refusal> {
        let (s, heap, words) = self.lent();
        let [standing, _, _, _, made] = &mut s.numbers;
        // SAFETY: see `Store::lent`.
        let refusal = unsafe {
            region_store_clear(*made, *standing, &s.widths, &mut s.slots, heap, words, slot)
        };
        passed(refusal)
    }

    /// Leads a slot to where a pointer word of an object leads.
    ///
    /// Call 13; it has no value.
    ///
    /// # Arguments
    ///
    /// - `slot`, a slot of the top frame, from 0 on
    /// - `word`, a word of the object, from 0 on
    /// - `to`, the slot of the top frame that is led there
    ///
    /// # Errors
    ///
    /// The first of these whose reason holds:
    /// - 21 [`Refusal::WrongHeap`], the heap's length is not the one made, or none was made, since make refused
    /// - 6 [`Refusal::NoFrame`], no frame, or fewer than the two that the call needs
    /// - 9 [`Refusal::NoSlot`], a slot named is not there
    /// - 14 [`Refusal::NullObject`], the object slot is null
    /// - 15 [`Refusal::NoWord`], the object has no such word
    /// - 16 [`Refusal::WrongWord`], the word is data where a pointer is wanted, or the other way round; for view, some word is no data
    #[inline]
    pub fn load(&mut self, slot: u32, word: u32, to: u32) -> Result<(), Refusal> {
        let (s, heap, words) = self.lent();
        let [standing, _, declared, _, made] = &mut s.numbers;
        // SAFETY: see `Store::lent`.
        let refusal = unsafe {
            region_store_load(
                *made,
                *standing,
                *declared,
                &s.widths,
                &mut s.slots,
                &s.sizes,
                &s.marks,
                heap,
                words,
                slot,
                word,
                to,
            )
        };
        passed(refusal)
    }

    /// Leads a pointer word of an object to where a slot leads, if the word's mark allows it.
    ///
    /// Call 14; it has no value.
    ///
    /// # Arguments
    ///
    /// - `slot`, a slot of the top frame, from 0 on
    /// - `word`, a word of the object, from 0 on
    /// - `value`, the slot of the top frame that leads where the word is to lead (not a pointer itself); a null slot makes the word null
    /// - `filler`, whom the call acts for, 0 to 3; 0 where one program has the store to itself
    ///
    /// # Errors
    ///
    /// The first of these whose reason holds:
    /// - 21 [`Refusal::WrongHeap`], the heap's length is not the one made, or none was made, since make refused
    /// - 23 [`Refusal::NoFiller`], the filler is above 3
    /// - 6 [`Refusal::NoFrame`], no frame, or fewer than the two that the call needs
    /// - 9 [`Refusal::NoSlot`], a slot named is not there
    /// - 14 [`Refusal::NullObject`], the object slot is null
    /// - 15 [`Refusal::NoWord`], the object has no such word
    /// - 16 [`Refusal::WrongWord`], the word is data where a pointer is wanted, or the other way round; for view, some word is no data
    /// - 17 [`Refusal::BreaksMark`], the pointer breaks the word's mark
    ///
    /// # Examples
    ///
    /// ```
    /// use region_store::{Refusal, Store};
    /// # fn main() -> Result<(), Refusal> {
    /// let mut store = Store::new(2)?;
    /// let clue = store.declare(&[1, 0])?;
    /// let round = store.new_region()?;
    /// store.push(2)?;
    /// store.allocate(0, 1, clue)?;
    /// store.allocate(1, round, clue)?;
    /// store.set_pointer(0, 0, 1, 0)?; // word 0 of the first leads to the second
    /// assert_eq!(store.report(round)?.count, 1);
    /// # Ok(())
    /// # }
    /// ```
    #[inline]
    pub fn set_pointer(
        &mut self,
        slot: u32,
        word: u32,
        value: u32,
        filler: u32,
    ) -> Result<(), Refusal> {
        let (s, heap, words) = self.lent();
        let [standing, _, declared, _, made] = &mut s.numbers;
        // SAFETY: see `Store::lent`.
        let refusal = unsafe {
            region_store_set_pointer(
                *made,
                *standing,
                *declared,
                &s.widths,
                &s.slots,
                &s.sizes,
                &s.marks,
                &s.names,
                &s.parents,
                &s.levels,
                &mut s.shares,
                &s.owners,
                heap,
                words,
                slot,
                word,
                value,
                filler,
            )
        };
        passed(refusal)
    }

    /// Writes a data word of an object.
    ///
    /// Call 15; it has no value.
    ///
    /// # Arguments
    ///
    /// - `slot`, a slot of the top frame, from 0 on
    /// - `word`, a word of the object, from 0 on
    /// - `number`, what the data word holds, a number of 32 bits
    ///
    /// # Errors
    ///
    /// The first of these whose reason holds:
    /// - 21 [`Refusal::WrongHeap`], the heap's length is not the one made, or none was made, since make refused
    /// - 6 [`Refusal::NoFrame`], no frame, or fewer than the two that the call needs
    /// - 9 [`Refusal::NoSlot`], a slot named is not there
    /// - 14 [`Refusal::NullObject`], the object slot is null
    /// - 15 [`Refusal::NoWord`], the object has no such word
    /// - 16 [`Refusal::WrongWord`], the word is data where a pointer is wanted, or the other way round; for view, some word is no data
    ///
    /// # Examples
    ///
    /// ```
    /// use region_store::{Refusal, Store};
    /// # fn main() -> Result<(), Refusal> {
    /// let mut store = Store::new(1)?;
    /// let clue = store.declare(&[1, 0])?;
    /// store.push(1)?;
    /// store.allocate(0, 1, clue)?;
    /// store.put(0, 1, 17)?;
    /// assert_eq!(store.get(0, 1)?, 17);
    /// assert_eq!(store.put(0, 0, 17), Err(Refusal::WrongWord)); // word 0 is a pointer
    /// # Ok(())
    /// # }
    /// ```
    #[inline]
    pub fn put(&mut self, slot: u32, word: u32, number: u32) -> Result<(), Refusal> {
        let (s, heap, words) = self.lent();
        let [standing, _, declared, _, made] = &mut s.numbers;
        // SAFETY: see `Store::lent`.
        let refusal = unsafe {
            region_store_put(
                *made, *standing, *declared, &s.widths, &s.slots, &s.sizes, &s.marks, heap, words,
                slot, word, number,
            )
        };
        passed(refusal)
    }

    /// Reads a data word of an object.
    ///
    /// Call 16; its value is `number`, what the data word holds, a number of 32 bits.
    ///
    /// # Arguments
    ///
    /// - `slot`, a slot of the top frame, from 0 on
    /// - `word`, a word of the object, from 0 on
    ///
    /// # Errors
    ///
    /// The first of these whose reason holds:
    /// - 21 [`Refusal::WrongHeap`], the heap's length is not the one made, or none was made, since make refused
    /// - 6 [`Refusal::NoFrame`], no frame, or fewer than the two that the call needs
    /// - 9 [`Refusal::NoSlot`], a slot named is not there
    /// - 14 [`Refusal::NullObject`], the object slot is null
    /// - 15 [`Refusal::NoWord`], the object has no such word
    /// - 16 [`Refusal::WrongWord`], the word is data where a pointer is wanted, or the other way round; for view, some word is no data
    #[inline]
    pub fn get(&self, slot: u32, word: u32) -> Result<u32, Refusal> {
        let (s, heap, words) = self.shown();
        let [standing, _, declared, _, made] = s.numbers;
        let mut v = 0;
        // SAFETY: see `Store::shown`.
        let refusal = unsafe {
            region_store_get(
                made, standing, declared, &s.widths, &s.slots, &s.sizes, &s.marks, heap, words,
                slot, word, &mut v,
            )
        };
        passed(refusal)?;
        Ok(v)
    }

    /// Gives the words of an object without pointers: the part of the heap itself, no copy.
    ///
    /// Call 17; its value is `part`.
    ///
    /// # Arguments
    ///
    /// - `slot`, a slot of the top frame, from 0 on
    ///
    /// # Errors
    ///
    /// The first of these whose reason holds:
    /// - 21 [`Refusal::WrongHeap`], the heap's length is not the one made, or none was made, since make refused
    /// - 6 [`Refusal::NoFrame`], no frame, or fewer than the two that the call needs
    /// - 9 [`Refusal::NoSlot`], a slot named is not there
    /// - 14 [`Refusal::NullObject`], the object slot is null
    /// - 16 [`Refusal::WrongWord`], the word is data where a pointer is wanted, or the other way round; for view, some word is no data
    ///
    /// # Examples
    ///
    /// ```
    /// use region_store::{Refusal, Store};
    /// # fn main() -> Result<(), Refusal> {
    /// let mut store = Store::new(1)?;
    /// let pair = store.declare(&[0, 0])?;
    /// store.push(1)?;
    /// store.allocate(0, 1, pair)?;
    /// store.put(0, 1, 17)?;
    /// let part = store.view(0)?;
    /// assert_eq!(store.get(0, 1)?, 17); // asks, while the part is held
    /// assert_eq!(part, [0, 17]);
    /// # Ok(())
    /// # }
    /// ```
    ///
    /// While the part is held, calls that act cannot be made; this does not compile:
    ///
    /// ```compile_fail,E0502
    /// use region_store::{Refusal, Store};
    /// # fn main() -> Result<(), Refusal> {
    /// # let mut store = Store::new(1)?;
    /// # let pair = store.declare(&[0, 0])?;
    /// # store.push(1)?;
    /// # store.allocate(0, 1, pair)?;
    /// let part = store.view(0)?;
    /// store.put(0, 1, 17)?;
    /// assert_eq!(part, [0, 17]);
    /// # Ok(())
    /// # }
    /// ```
    pub fn view(&self, slot: u32) -> Result<&[u32], Refusal> {
        self.part(slot)
    }

    /// Tells whether two slots lead to one object, or are both null.
    ///
    /// Call 18; its value is `same`.
    ///
    /// # Arguments
    ///
    /// - `slot`, a slot of the top frame, from 0 on
    /// - `other`, the other slot, of the top frame too
    ///
    /// # Errors
    ///
    /// The first of these whose reason holds:
    /// - 21 [`Refusal::WrongHeap`], the heap's length is not the one made, or none was made, since make refused
    /// - 6 [`Refusal::NoFrame`], no frame, or fewer than the two that the call needs
    /// - 9 [`Refusal::NoSlot`], a slot named is not there
    #[inline]
    pub fn same(&self, slot: u32, other: u32) -> Result<bool, Refusal> {
        let (s, heap, words) = self.shown();
        let [standing, _, _, _, made] = s.numbers;
        let mut v = 0;
        // SAFETY: see `Store::shown`.
        let refusal = unsafe {
            region_store_same(
                made, standing, &s.widths, &s.slots, heap, words, slot, other, &mut v,
            )
        };
        passed(refusal)?;
        Ok(v == 1)
    }

    /// Gives the region and the kind of the object that a slot leads to, 0 and 0 for null.
    ///
    /// Call 19; its values are those of [`About`].
    ///
    /// # Arguments
    ///
    /// - `slot`, a slot of the top frame, from 0 on
    ///
    /// # Errors
    ///
    /// The first of these whose reason holds:
    /// - 21 [`Refusal::WrongHeap`], the heap's length is not the one made, or none was made, since make refused
    /// - 6 [`Refusal::NoFrame`], no frame, or fewer than the two that the call needs
    /// - 9 [`Refusal::NoSlot`], a slot named is not there
    #[inline]
    pub fn about(&self, slot: u32) -> Result<About, Refusal> {
        let (s, heap, words) = self.shown();
        let [standing, _, _, _, made] = s.numbers;
        let mut v = [0; 2];
        // SAFETY: see `Store::shown`.
        let refusal = unsafe {
            region_store_about(
                made, standing, &s.widths, &s.slots, &s.names, &s.owners, heap, words, slot, &mut v,
            )
        };
        passed(refusal)?;
        Ok(About {
            region: v[0],
            kind: v[1],
        })
    }

    /// Gives a region's stored count, its outside pointers, its pages, and the live subregions directly below it.
    ///
    /// Call 20; its values are those of [`Report`].
    ///
    /// # Arguments
    ///
    /// - `region`, a region's name, a number from 1 on
    ///
    /// # Errors
    ///
    /// The first of these whose reason holds:
    /// - 21 [`Refusal::WrongHeap`], the heap's length is not the one made, or none was made, since make refused
    /// - 2 [`Refusal::NoRegion`], no live region has that name
    ///
    /// # Examples
    ///
    /// ```
    /// use region_store::{Refusal, Store};
    /// # fn main() -> Result<(), Refusal> {
    /// let mut store = Store::new(1)?;
    /// let round = store.new_region()?;
    /// let report = store.report(round)?;
    /// assert_eq!((report.count, report.outside, report.pages, report.subregions), (0, 0, 0, 0));
    /// # Ok(())
    /// # }
    /// ```
    #[inline]
    pub fn report(&self, region: u32) -> Result<Report, Refusal> {
        let (s, heap, words) = self.shown();
        let [standing, counted, _, _, made] = s.numbers;
        let mut v = [0; 4];
        // SAFETY: see `Store::shown`.
        let refusal = unsafe {
            region_store_report(
                made, standing, counted, &s.widths, &s.slots, &s.names, &s.parents, &s.shares,
                &s.owners, heap, words, region, &mut v,
            )
        };
        passed(refusal)?;
        Ok(Report {
            count: v[0],
            outside: v[1],
            pages: v[2],
            subregions: v[3],
        })
    }

    /// Gives how many pages are free, regions live, frames stand and frames are counted.
    ///
    /// Call 21; its values are those of [`Totals`], and it is never refused.
    ///
    /// # Examples
    ///
    /// ```
    /// use region_store::{Refusal, Store};
    /// # fn main() -> Result<(), Refusal> {
    /// let store = Store::new(4)?;
    /// assert_eq!(store.totals().free_pages, 4);
    /// assert_eq!(store.totals().regions, 1);
    /// # Ok(())
    /// # }
    /// ```
    #[must_use]
    #[inline]
    pub fn totals(&self) -> Totals {
        let (s, _, _) = self.shown();
        let [standing, counted, _, _, made] = s.numbers;
        let mut v = [0; 4];
        // SAFETY: see `Store::shown`.
        let refusal =
            unsafe { region_store_totals(made, standing, counted, &s.names, &s.owners, &mut v) };
        passed(refusal).expect("it is never refused");
        Totals {
            free_pages: v[0],
            regions: v[1],
            frames: v[2],
            counted: v[3],
        }
    }

    /// Tells whether the memory is a sound store, by counting everything anew.
    ///
    /// Call 22; its value is `sound`, and it is never refused.
    ///
    /// # Examples
    ///
    /// ```
    /// use region_store::{Refusal, Store};
    /// # fn main() -> Result<(), Refusal> {
    /// let store = Store::new(4)?;
    /// assert!(store.audit());
    /// # Ok(())
    /// # }
    /// ```
    #[must_use]
    pub fn audit(&self) -> bool {
        self.audited()[1] == 1
    }

    /// Deletes a region, and gives how many pages that frees.
    ///
    /// Call 23; its value is `pages`.
    ///
    /// # Arguments
    ///
    /// - `region`, a region's name, a number from 1 on
    /// - `filler`, whom the call acts for, 0 to 3; 0 where one program has the store to itself
    ///
    /// # Errors
    ///
    /// The first of these whose reason holds:
    /// - 21 [`Refusal::WrongHeap`], the heap's length is not the one made, or none was made, since make refused
    /// - 23 [`Refusal::NoFiller`], the filler is above 3
    /// - 2 [`Refusal::NoRegion`], no live region has that name
    /// - 3 [`Refusal::Permanent`], region 1 is permanent
    /// - 18 [`Refusal::SubregionLives`], a subregion lives; for delete_all, one that is not named with the others
    /// - 19 [`Refusal::OutsidePointer`], an outside pointer remains; for delete_all, a slot that leads into a region named, or a free word of a region that is not
    ///
    /// # Examples
    ///
    /// ```
    /// use region_store::{Refusal, Store};
    /// # fn main() -> Result<(), Refusal> {
    /// let mut store = Store::new(1)?;
    /// let kind = store.declare(&[0])?;
    /// let round = store.new_region()?;
    /// store.push(1)?;
    /// store.allocate(0, round, kind)?;
    /// assert_eq!(store.delete(round, 0), Err(Refusal::OutsidePointer)); // slot 0 leads there
    /// store.clear(0)?;
    /// assert_eq!(store.delete(round, 0)?, 1); // one page is free again
    /// # Ok(())
    /// # }
    /// ```
    #[inline]
    pub fn delete(&mut self, region: u32, filler: u32) -> Result<u32, Refusal> {
        let (s, heap, words) = self.lent();
        let [standing, counted, declared, _, made] = &mut s.numbers;
        let mut v = 0;
        // SAFETY: see `Store::lent`.
        let refusal = unsafe {
            region_store_delete(
                *made,
                *standing,
                counted,
                *declared,
                &s.widths,
                &s.slots,
                &s.sizes,
                &s.marks,
                &mut s.names,
                &s.parents,
                &mut s.shares,
                &mut s.owners,
                &s.taken,
                heap,
                words,
                region,
                filler,
                &mut v,
            )
        };
        passed(refusal)?;
        Ok(v)
    }

    /// Deletes 1 to 16 regions that may lead into each other, all or none, and gives how many pages that frees. Refusals 2 and 3 are tested for one name after the other.
    ///
    /// Call 24; its value is `pages`.
    ///
    /// # Arguments
    ///
    /// - `regions`, the names of 1 to 16 regions, each once
    /// - `filler`, whom the call acts for, 0 to 3; 0 where one program has the store to itself
    ///
    /// # Errors
    ///
    /// The first of these whose reason holds:
    /// - 21 [`Refusal::WrongHeap`], the heap's length is not the one made, or none was made, since make refused
    /// - 23 [`Refusal::NoFiller`], the filler is above 3
    /// - 22 [`Refusal::WrongNames`], no name, more than 16 names, or one twice
    /// - 2 [`Refusal::NoRegion`], no live region has that name
    /// - 3 [`Refusal::Permanent`], region 1 is permanent
    /// - 18 [`Refusal::SubregionLives`], a subregion lives; for delete_all, one that is not named with the others
    /// - 19 [`Refusal::OutsidePointer`], an outside pointer remains; for delete_all, a slot that leads into a region named, or a free word of a region that is not
    ///
    /// # Examples
    ///
    /// ```
    /// use region_store::{Refusal, Store};
    /// # fn main() -> Result<(), Refusal> {
    /// let mut store = Store::new(1)?;
    /// let round = store.new_region()?;
    /// let grid = store.subregion(round)?;
    /// store.delete_all(&[round, grid], 0)?;
    /// assert_eq!(store.totals().regions, 1);
    /// # Ok(())
    /// # }
    /// ```
    pub fn delete_all(&mut self, regions: &[u32], filler: u32) -> Result<u32, Refusal> {
        let v = accepted(self.act(24, [filler, 0, 0, 0], regions))?;
        Ok(v[1])
    }

    /// Gives the page of the object that a slot leads to and the word of its header there, 256 and 0 for null.
    ///
    /// Call 25; its values are those of [`Locate`].
    ///
    /// # Arguments
    ///
    /// - `slot`, a slot of the top frame, from 0 on
    ///
    /// # Errors
    ///
    /// The first of these whose reason holds:
    /// - 21 [`Refusal::WrongHeap`], the heap's length is not the one made, or none was made, since make refused
    /// - 6 [`Refusal::NoFrame`], no frame, or fewer than the two that the call needs
    /// - 9 [`Refusal::NoSlot`], a slot named is not there
    #[inline]
    pub fn locate(&self, slot: u32) -> Result<Locate, Refusal> {
        let (s, heap, words) = self.shown();
        let [standing, _, _, _, made] = s.numbers;
        let mut v = [0; 2];
        // SAFETY: see `Store::shown`.
        let refusal = unsafe {
            region_store_locate(
                made, standing, &s.widths, &s.slots, heap, words, slot, &mut v,
            )
        };
        passed(refusal)?;
        Ok(Locate {
            page: v[0],
            word: v[1],
        })
    }
}
// hosts/tables: end
