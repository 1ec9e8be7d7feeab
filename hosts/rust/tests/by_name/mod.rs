//! Every call by its method, from its number: for tests and the player. Each of them uses a part of this.
#![allow(dead_code)]

use region_store::{Refusal, Store};

/// What a method gives, as the four values of a reply.
pub trait Values {
    fn values(self) -> [u32; 4];
}

impl Values for () {
    fn values(self) -> [u32; 4] {
        [0; 4]
    }
}

impl Values for u32 {
    fn values(self) -> [u32; 4] {
        [self, 0, 0, 0]
    }
}

impl Values for bool {
    fn values(self) -> [u32; 4] {
        [u32::from(self), 0, 0, 0]
    }
}

/// The length of a part.
impl Values for &[u32] {
    fn values(self) -> [u32; 4] {
        [self.len() as u32, 0, 0, 0]
    }
}

/// The reply to an accepted call.
pub fn accepted(given: impl Values) -> [u32; 5] {
    let [a, b, c, d] = given.values();
    [0, a, b, c, d]
}

/// The reply to a call, refused or not.
pub fn answer(result: Result<impl Values, Refusal>) -> [u32; 5] {
    match result {
        Ok(given) => accepted(given),
        Err(refusal) => [refusal.number(), 0, 0, 0, 0],
    }
}

// hosts/tables: begin by_name
/// The name and the arguments of each call, in the order of their numbers, from 1 on.
pub const CALLS: [(&str, &str); 25] = [
    ("make", "heap.."),
    ("declare", "marks.."),
    ("new_region", ""),
    ("subregion", "region"),
    ("push", "slots"),
    ("drop", "filler"),
    ("hand_back", "slot beneath filler"),
    ("allocate", "slot region kind"),
    ("first", "slot region"),
    ("copy", "from to"),
    ("fetch", "beneath slot"),
    ("clear", "slot"),
    ("load", "slot word to"),
    ("set_pointer", "slot word value filler"),
    ("put", "slot word number"),
    ("get", "slot word"),
    ("view", "slot"),
    ("same", "slot other"),
    ("about", "slot"),
    ("report", "region"),
    ("totals", ""),
    ("audit", ""),
    ("delete", "region filler"),
    ("delete_all", "regions.. filler"),
    ("locate", "slot"),
];

impl Values for region_store::About {
    fn values(self) -> [u32; 4] {
        [self.region, self.kind, 0, 0]
    }
}

impl Values for region_store::Report {
    fn values(self) -> [u32; 4] {
        [self.count, self.outside, self.pages, self.subregions]
    }
}

impl Values for region_store::Totals {
    fn values(self) -> [u32; 4] {
        [self.free_pages, self.regions, self.frames, self.counted]
    }
}

impl Values for region_store::Locate {
    fn values(self) -> [u32; 4] {
        [self.page, self.word, 0, 0]
    }
}

/// Makes call `number`, any but make, by its method: the numbers in front, then the list.
pub fn by_name(store: &mut Store, number: u32, n: [u32; 4], list: &[u32]) -> [u32; 5] {
    match number {
        2 => answer(store.declare(list)),
        3 => answer(store.new_region()),
        4 => answer(store.subregion(n[0])),
        5 => answer(store.push(n[0])),
        6 => answer(store.drop(n[0])),
        7 => answer(store.hand_back(n[0], n[1], n[2])),
        8 => answer(store.allocate(n[0], n[1], n[2])),
        9 => answer(store.first(n[0], n[1])),
        10 => answer(store.copy(n[0], n[1])),
        11 => answer(store.fetch(n[0], n[1])),
        12 => answer(store.clear(n[0])),
        13 => answer(store.load(n[0], n[1], n[2])),
        14 => answer(store.set_pointer(n[0], n[1], n[2], n[3])),
        15 => answer(store.put(n[0], n[1], n[2])),
        16 => answer(store.get(n[0], n[1])),
        17 => answer(store.view(n[0])),
        18 => answer(store.same(n[0], n[1])),
        19 => answer(store.about(n[0])),
        20 => answer(store.report(n[0])),
        21 => accepted(store.totals()),
        22 => accepted(store.audit()),
        23 => answer(store.delete(n[0], n[1])),
        24 => answer(store.delete_all(list, n[0])),
        25 => answer(store.locate(n[0])),
        _ => panic!("no method has number {number}"),
    }
}
// hosts/tables: end
