//! What the crate has of hosts/store.txt, apart from the calls.

use crate::numbers::{read_numbers, write_numbers};

// hosts/tables: begin tables
/// The version of the layout of a state and of saved stores.
pub const VERSION: u32 = 1;

/// The first bytes of a saved store.
pub(crate) const MAGIC: [u8; 8] = *b"REGSTORE";

/// The bytes of a state.
pub(crate) const STATE_BYTES: usize = 3652;

/// What the library has to say of its layout: the version, then the width and the length of each array.
pub(crate) const LAYOUT: [u32; 27] = [
    1, 4, 5, 1, 32, 4, 256, 1, 16, 1, 256, 4, 64, 1, 64, 1, 64, 4, 256, 2, 64, 4, 64, 1, 256, 1,
    256,
];

/// The state of a store, as the library is lent it: the numbers, then the arrays.
#[derive(Clone)]
#[repr(C)]
pub(crate) struct State {
    /// 0: how many frames stand
    /// 1: how many frames, from the lowest on, are counted
    /// 2: how many kinds are declared
    /// 3: the last name given to a region
    /// 4: how many pages were made
    pub numbers: [u32; 5],
    /// how many slots each frame has
    pub widths: [u8; 32],
    /// slot s of frame i, at 8 i + s: a pointer, 0 for null
    pub slots: [u32; 256],
    /// how many words an object of each kind has
    pub sizes: [u8; 16],
    /// the mark of word w of kind k, at 16 (k - 1) + w
    pub marks: [u8; 256],
    /// the name of each region entry, 0 for one not in use
    pub names: [u32; 64],
    /// the entry of the region above plus 1, 0 for none
    pub parents: [u8; 64],
    /// how deep each region lies
    pub levels: [u8; 64],
    /// filler f's share of the count of entry i, at 4 i + f
    pub shares: [u32; 256],
    /// the newest page of each region plus 1, 0 for none
    pub newest: [u16; 64],
    /// the first object of each region, 0 for none
    pub oldest: [u32; 64],
    /// the entry of the region that holds each page plus 1, 0 for a free page
    pub owners: [u8; 256],
    /// how many words of each page objects fill
    pub taken: [u8; 256],
}

impl State {
    /// A state of zeros, in which no store was made.
    pub const ZEROS: State = State {
        numbers: [0; 5],
        widths: [0; 32],
        slots: [0; 256],
        sizes: [0; 16],
        marks: [0; 256],
        names: [0; 64],
        parents: [0; 64],
        levels: [0; 64],
        shares: [0; 256],
        newest: [0; 64],
        oldest: [0; 64],
        owners: [0; 256],
        taken: [0; 256],
    };

    /// The bytes of the state, added to others.
    pub fn write(&self, out: &mut Vec<u8>) {
        write_numbers(out, &self.numbers);
        write_numbers(out, &self.widths);
        write_numbers(out, &self.slots);
        write_numbers(out, &self.sizes);
        write_numbers(out, &self.marks);
        write_numbers(out, &self.names);
        write_numbers(out, &self.parents);
        write_numbers(out, &self.levels);
        write_numbers(out, &self.shares);
        write_numbers(out, &self.newest);
        write_numbers(out, &self.oldest);
        write_numbers(out, &self.owners);
        write_numbers(out, &self.taken);
    }

    /// The state in front of bytes, which go on after it; there are enough of them.
    pub fn read(bytes: &mut &[u8]) -> State {
        State {
            numbers: read_numbers(bytes),
            widths: read_numbers(bytes),
            slots: read_numbers(bytes),
            sizes: read_numbers(bytes),
            marks: read_numbers(bytes),
            names: read_numbers(bytes),
            parents: read_numbers(bytes),
            levels: read_numbers(bytes),
            shares: read_numbers(bytes),
            newest: read_numbers(bytes),
            oldest: read_numbers(bytes),
            owners: read_numbers(bytes),
            taken: read_numbers(bytes),
        }
    }
}

extern "C" {
    pub(crate) fn region_store_make(
        numbers: *mut [u32; 5],
        widths: *mut [u8; 32],
        slots: *mut [u32; 256],
        sizes: *mut [u8; 16],
        marks: *mut [u8; 256],
        names: *mut [u32; 64],
        parents: *mut [u8; 64],
        levels: *mut [u8; 64],
        shares: *mut [u32; 256],
        newest: *mut [u16; 64],
        oldest: *mut [u32; 64],
        owners: *mut [u8; 256],
        taken: *mut [u8; 256],
        heap: *mut u32,
        words: usize,
        reply: *mut [u32; 5],
    );
    pub(crate) fn region_store_call(
        numbers: *mut [u32; 5],
        widths: *mut [u8; 32],
        slots: *mut [u32; 256],
        sizes: *mut [u8; 16],
        marks: *mut [u8; 256],
        names: *mut [u32; 64],
        parents: *mut [u8; 64],
        levels: *mut [u8; 64],
        shares: *mut [u32; 256],
        newest: *mut [u16; 64],
        oldest: *mut [u32; 64],
        owners: *mut [u8; 256],
        taken: *mut [u8; 256],
        heap: *mut u32,
        words: usize,
        number: u32,
        a: u32,
        b: u32,
        c: u32,
        d: u32,
        list: *const u32,
        count: usize,
        reply: *mut [u32; 5],
    );
    pub(crate) fn region_store_view(
        numbers: *const [u32; 5],
        widths: *const [u8; 32],
        slots: *const [u32; 256],
        sizes: *const [u8; 16],
        marks: *const [u8; 256],
        names: *const [u32; 64],
        parents: *const [u8; 64],
        levels: *const [u8; 64],
        shares: *const [u32; 256],
        newest: *const [u16; 64],
        oldest: *const [u32; 64],
        owners: *const [u8; 256],
        taken: *const [u8; 256],
        heap: *const u32,
        words: usize,
        slot: u32,
        out: *mut [u32; 3],
    );
    pub(crate) fn region_store_audit(
        numbers: *const [u32; 5],
        widths: *const [u8; 32],
        slots: *const [u32; 256],
        sizes: *const [u8; 16],
        marks: *const [u8; 256],
        names: *const [u32; 64],
        parents: *const [u8; 64],
        levels: *const [u8; 64],
        shares: *const [u32; 256],
        newest: *const [u16; 64],
        oldest: *const [u32; 64],
        owners: *const [u8; 256],
        taken: *const [u8; 256],
        heap: *const u32,
        words: usize,
        reply: *mut [u32; 5],
    );
    pub(crate) fn region_store_layout(out: *mut u32, room: usize) -> usize;
    pub(crate) fn region_store_declare(
        made: u32,
        declared: &mut u32,
        sizes: &mut [u8; 16],
        marks: &mut [u8; 256],
        heap: *const u32,
        words: usize,
        list: *const u32,
        count: usize,
        value: &mut u32,
    ) -> u32;
    pub(crate) fn region_store_new_region(
        made: u32,
        given: &mut u32,
        names: &mut [u32; 64],
        parents: &mut [u8; 64],
        levels: &mut [u8; 64],
        shares: &mut [u32; 256],
        newest: &mut [u16; 64],
        oldest: &mut [u32; 64],
        heap: *const u32,
        words: usize,
        value: &mut u32,
    ) -> u32;
    pub(crate) fn region_store_subregion(
        made: u32,
        given: &mut u32,
        names: &mut [u32; 64],
        parents: &mut [u8; 64],
        levels: &mut [u8; 64],
        shares: &mut [u32; 256],
        newest: &mut [u16; 64],
        oldest: &mut [u32; 64],
        heap: *const u32,
        words: usize,
        region: u32,
        value: &mut u32,
    ) -> u32;
    pub(crate) fn region_store_push(
        made: u32,
        standing: &mut u32,
        widths: &mut [u8; 32],
        slots: &mut [u32; 256],
        heap: *const u32,
        words: usize,
        count: u32,
        value: &mut u32,
    ) -> u32;
    pub(crate) fn region_store_drop(
        made: u32,
        standing: &mut u32,
        counted: &mut u32,
        widths: &[u8; 32],
        slots: &[u32; 256],
        shares: &mut [u32; 256],
        owners: &[u8; 256],
        heap: *const u32,
        words: usize,
        filler: u32,
        value: &mut u32,
    ) -> u32;
    pub(crate) fn region_store_hand_back(
        made: u32,
        standing: &mut u32,
        counted: &mut u32,
        widths: &[u8; 32],
        slots: &mut [u32; 256],
        shares: &mut [u32; 256],
        owners: &[u8; 256],
        heap: *const u32,
        words: usize,
        slot: u32,
        beneath: u32,
        filler: u32,
        value: &mut u32,
    ) -> u32;
    pub(crate) fn region_store_allocate(
        made: u32,
        standing: u32,
        declared: u32,
        widths: &[u8; 32],
        slots: &mut [u32; 256],
        sizes: &[u8; 16],
        names: &[u32; 64],
        newest: &mut [u16; 64],
        oldest: &mut [u32; 64],
        owners: &mut [u8; 256],
        taken: &mut [u8; 256],
        heap: *mut u32,
        words: usize,
        slot: u32,
        region: u32,
        kind: u32,
    ) -> u32;
    pub(crate) fn region_store_first(
        made: u32,
        standing: u32,
        widths: &[u8; 32],
        slots: &mut [u32; 256],
        names: &[u32; 64],
        oldest: &[u32; 64],
        heap: *const u32,
        words: usize,
        slot: u32,
        region: u32,
    ) -> u32;
    pub(crate) fn region_store_copy(
        made: u32,
        standing: u32,
        widths: &[u8; 32],
        slots: &mut [u32; 256],
        heap: *const u32,
        words: usize,
        from: u32,
        to: u32,
    ) -> u32;
    pub(crate) fn region_store_fetch(
        made: u32,
        standing: u32,
        widths: &[u8; 32],
        slots: &mut [u32; 256],
        heap: *const u32,
        words: usize,
        beneath: u32,
        slot: u32,
    ) -> u32;
    pub(crate) fn region_store_clear(
        made: u32,
        standing: u32,
        widths: &[u8; 32],
        slots: &mut [u32; 256],
        heap: *const u32,
        words: usize,
        slot: u32,
    ) -> u32;
    pub(crate) fn region_store_load(
        made: u32,
        standing: u32,
        declared: u32,
        widths: &[u8; 32],
        slots: &mut [u32; 256],
        sizes: &[u8; 16],
        marks: &[u8; 256],
        heap: *const u32,
        words: usize,
        slot: u32,
        word: u32,
        to: u32,
    ) -> u32;
    pub(crate) fn region_store_set_pointer(
        made: u32,
        standing: u32,
        declared: u32,
        widths: &[u8; 32],
        slots: &[u32; 256],
        sizes: &[u8; 16],
        marks: &[u8; 256],
        names: &[u32; 64],
        parents: &[u8; 64],
        levels: &[u8; 64],
        shares: &mut [u32; 256],
        owners: &[u8; 256],
        heap: *mut u32,
        words: usize,
        slot: u32,
        word: u32,
        value: u32,
        filler: u32,
    ) -> u32;
    pub(crate) fn region_store_put(
        made: u32,
        standing: u32,
        declared: u32,
        widths: &[u8; 32],
        slots: &[u32; 256],
        sizes: &[u8; 16],
        marks: &[u8; 256],
        heap: *mut u32,
        words: usize,
        slot: u32,
        word: u32,
        number: u32,
    ) -> u32;
    pub(crate) fn region_store_get(
        made: u32,
        standing: u32,
        declared: u32,
        widths: &[u8; 32],
        slots: &[u32; 256],
        sizes: &[u8; 16],
        marks: &[u8; 256],
        heap: *const u32,
        words: usize,
        slot: u32,
        word: u32,
        value: &mut u32,
    ) -> u32;
    pub(crate) fn region_store_same(
        made: u32,
        standing: u32,
        widths: &[u8; 32],
        slots: &[u32; 256],
        heap: *const u32,
        words: usize,
        slot: u32,
        other: u32,
        value: &mut u32,
    ) -> u32;
    pub(crate) fn region_store_about(
        made: u32,
        standing: u32,
        widths: &[u8; 32],
        slots: &[u32; 256],
        names: &[u32; 64],
        owners: &[u8; 256],
        heap: *const u32,
        words: usize,
        slot: u32,
        values: &mut [u32; 2],
    ) -> u32;
    pub(crate) fn region_store_report(
        made: u32,
        standing: u32,
        counted: u32,
        widths: &[u8; 32],
        slots: &[u32; 256],
        names: &[u32; 64],
        parents: &[u8; 64],
        shares: &[u32; 256],
        owners: &[u8; 256],
        heap: *const u32,
        words: usize,
        region: u32,
        values: &mut [u32; 4],
    ) -> u32;
    pub(crate) fn region_store_totals(
        made: u32,
        standing: u32,
        counted: u32,
        names: &[u32; 64],
        owners: &[u8; 256],
        values: &mut [u32; 4],
    ) -> u32;
    pub(crate) fn region_store_delete(
        made: u32,
        standing: u32,
        counted: &mut u32,
        declared: u32,
        widths: &[u8; 32],
        slots: &[u32; 256],
        sizes: &[u8; 16],
        marks: &[u8; 256],
        names: &mut [u32; 64],
        parents: &[u8; 64],
        shares: &mut [u32; 256],
        owners: &mut [u8; 256],
        taken: &[u8; 256],
        heap: *const u32,
        words: usize,
        region: u32,
        filler: u32,
        value: &mut u32,
    ) -> u32;
    pub(crate) fn region_store_locate(
        made: u32,
        standing: u32,
        widths: &[u8; 32],
        slots: &[u32; 256],
        heap: *const u32,
        words: usize,
        slot: u32,
        values: &mut [u32; 2],
    ) -> u32;
}

/// Calls a function of the library with the arrays of a state, which it writes (`mut`) or only reads (`const`), then the rest of its arguments.
macro_rules! lend {
    ($how:tt $function:ident, $state:expr, $($rest:expr),+ $(,)?) => {{
        let state: *$how $crate::tables::State = $state;
        $crate::tables::$function(
            &raw $how (*state).numbers,
            &raw $how (*state).widths,
            &raw $how (*state).slots,
            &raw $how (*state).sizes,
            &raw $how (*state).marks,
            &raw $how (*state).names,
            &raw $how (*state).parents,
            &raw $how (*state).levels,
            &raw $how (*state).shares,
            &raw $how (*state).newest,
            &raw $how (*state).oldest,
            &raw $how (*state).owners,
            &raw $how (*state).taken,
            $($rest),+
        )
    }};
}
pub(crate) use lend;

/// Why a call was refused. A refused call has changed nothing.
#[derive(Clone, Copy, Debug, PartialEq, Eq, Hash)]
#[non_exhaustive]
#[repr(u32)]
pub enum Refusal {
    /// 1: the heap's length is not 64 times 1 to 256
    HeapLength = 1,
    /// 2: no live region has that name
    NoRegion = 2,
    /// 3: region 1 is permanent
    Permanent = 3,
    /// 4: 64 regions live, the most there can be
    RegionsFull = 4,
    /// 5: name 1,000,000 was given, the last there is
    NamesOut = 5,
    /// 6: no frame, or fewer than the two that the call needs
    NoFrame = 6,
    /// 7: 32 frames stand, the most there can be
    FramesFull = 7,
    /// 8: a frame has 1 to 8 slots
    SlotCount = 8,
    /// 9: a slot named is not there
    NoSlot = 9,
    /// 10: 16 kinds stand, the most there can be
    KindsFull = 10,
    /// 11: no mark, more than 16 marks, or one above 4
    WrongMarks = 11,
    /// 12: no such kind
    NoKind = 12,
    /// 13: the region has no page, or the object does not fit its newest one, and no page is free
    NoPage = 13,
    /// 14: the object slot is null
    NullObject = 14,
    /// 15: the object has no such word
    NoWord = 15,
    /// 16: the word is data where a pointer is wanted, or the other way round; for view, some word is no data
    WrongWord = 16,
    /// 17: the pointer breaks the word's mark
    BreaksMark = 17,
    /// 18: a subregion lives; for delete_all, one that is not named with the others
    SubregionLives = 18,
    /// 19: an outside pointer remains; for delete_all, a slot that leads into a region named, or a free word of a region that is not
    OutsidePointer = 19,
    /// 20: the region above is at level 16, the deepest
    TooDeep = 20,
    /// 21: the heap's length is not the one made, or none was made, since make refused
    WrongHeap = 21,
    /// 22: no name, more than 16 names, or one twice
    WrongNames = 22,
    /// 23: the filler is above 3
    NoFiller = 23,
    /// 24: no call has that number
    NoCall = 24,
}

impl Refusal {
    /// All refusals, in the order of their numbers, from 1 on.
    pub const ALL: [Refusal; 24] = [
        Refusal::HeapLength,
        Refusal::NoRegion,
        Refusal::Permanent,
        Refusal::RegionsFull,
        Refusal::NamesOut,
        Refusal::NoFrame,
        Refusal::FramesFull,
        Refusal::SlotCount,
        Refusal::NoSlot,
        Refusal::KindsFull,
        Refusal::WrongMarks,
        Refusal::NoKind,
        Refusal::NoPage,
        Refusal::NullObject,
        Refusal::NoWord,
        Refusal::WrongWord,
        Refusal::BreaksMark,
        Refusal::SubregionLives,
        Refusal::OutsidePointer,
        Refusal::TooDeep,
        Refusal::WrongHeap,
        Refusal::WrongNames,
        Refusal::NoFiller,
        Refusal::NoCall,
    ];
}

pub(crate) const REFUSAL_NAMES: [&str; 24] = [
    "heap_length",
    "no_region",
    "permanent",
    "regions_full",
    "names_out",
    "no_frame",
    "frames_full",
    "slot_count",
    "no_slot",
    "kinds_full",
    "wrong_marks",
    "no_kind",
    "no_page",
    "null_object",
    "no_word",
    "wrong_word",
    "breaks_mark",
    "subregion_lives",
    "outside_pointer",
    "too_deep",
    "wrong_heap",
    "wrong_names",
    "no_filler",
    "no_call",
];

pub(crate) const REASONS: [&str; 24] = [
    "the heap's length is not 64 times 1 to 256",
    "no live region has that name",
    "region 1 is permanent",
    "64 regions live, the most there can be",
    "name 1,000,000 was given, the last there is",
    "no frame, or fewer than the two that the call needs",
    "32 frames stand, the most there can be",
    "a frame has 1 to 8 slots",
    "a slot named is not there",
    "16 kinds stand, the most there can be",
    "no mark, more than 16 marks, or one above 4",
    "no such kind",
    "the region has no page, or the object does not fit its newest one, and no page is free",
    "the object slot is null",
    "the object has no such word",
    "the word is data where a pointer is wanted, or the other way round; for view, some word is no data",
    "the pointer breaks the word's mark",
    "a subregion lives; for delete_all, one that is not named with the others",
    "an outside pointer remains; for delete_all, a slot that leads into a region named, or a free word of a region that is not",
    "the region above is at level 16, the deepest",
    "the heap's length is not the one made, or none was made, since make refused",
    "no name, more than 16 names, or one twice",
    "the filler is above 3",
    "no call has that number",
];

/// Why a store was not loaded. Nothing was changed.
#[derive(Debug)]
#[non_exhaustive]
pub enum NotLoaded {
    /// 1: the file cannot be read
    Unreadable(std::io::Error),
    /// 2: the file ends before its sum
    Short,
    /// 3: the file does not begin as a saved store does
    NoStore,
    /// 4: the file has another version of the layout
    OtherVersion,
    /// 5: the file's lengths are none that a store has
    WrongLengths,
    /// 6: the file goes on after its sum
    Long,
    /// 7: the file's sum is not that of its bytes
    WrongSum,
    /// 8: the audit rejects the memory that the file has
    Unsound,
}

impl NotLoaded {
    /// The number of the reason, the same in every language.
    #[must_use]
    pub fn number(&self) -> u32 {
        match self {
            NotLoaded::Unreadable(_) => 1,
            NotLoaded::Short => 2,
            NotLoaded::NoStore => 3,
            NotLoaded::OtherVersion => 4,
            NotLoaded::WrongLengths => 5,
            NotLoaded::Long => 6,
            NotLoaded::WrongSum => 7,
            NotLoaded::Unsound => 8,
        }
    }
}

/// Why a store was not saved.
#[derive(Debug)]
#[non_exhaustive]
pub enum NotSaved {
    /// 10: the file cannot be written
    Unwritable(std::io::Error),
}

impl NotSaved {
    /// The number of the reason, the same in every language.
    #[must_use]
    pub fn number(&self) -> u32 {
        match self {
            NotSaved::Unwritable(_) => 10,
        }
    }
}

pub(crate) const FILE_NAMES: [&str; 10] = [
    "unreadable",
    "short",
    "no_store",
    "other_version",
    "wrong_lengths",
    "long",
    "wrong_sum",
    "unsound",
    "no_room",
    "unwritable",
];

pub(crate) const FILE_MESSAGES: [&str; 10] = [
    "the file cannot be read",
    "the file ends before its sum",
    "the file does not begin as a saved store does",
    "the file has another version of the layout",
    "the file's lengths are none that a store has",
    "the file goes on after its sum",
    "the file's sum is not that of its bytes",
    "the audit rejects the memory that the file has",
    "the heap lent is smaller than the one in the file",
    "the file cannot be written",
];
// hosts/tables: end
