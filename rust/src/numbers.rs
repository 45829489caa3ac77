//! Numbers of one heap.
use crate::answers::done;
use crate::library::{Reference, NULL};
use crate::{Refusal, LOG};
use std::sync::atomic::{AtomicU64, Ordering};

/// How many regions a heap has, how many cards a region, and slots a card.
#[repr(C)]
#[derive(Clone, Copy, Debug, PartialEq, Eq)]
pub struct Counts {
    /// Regions of the heap: 1 to 256.
    pub regions: u32,
    /// Cards of a region: 1 to 65,536.
    pub cards: u32,
    /// Slots of a card: 1 to 64.
    pub slots: u32,
}

/// Which heap a number belongs to, and how that is laid out.
#[derive(Clone, Copy, Debug, PartialEq, Eq, PartialOrd, Ord, Hash)]
pub struct Home {
    heap: u64,
    /// Cards of a region.
    cards: u32,
    /// Slots of a card.
    slots: u32,
}

impl Home {
    /// That of a heap which no number belongs to yet.
    pub fn new(counts: Counts) -> Home {
        static HEAPS: AtomicU64 = AtomicU64::new(0);
        Home {
            heap: HEAPS.fetch_add(1, Ordering::Relaxed),
            cards: counts.cards,
            slots: counts.slots,
        }
    }
}

/// The regions of a collection set of one heap, whose numbers are there for each call.
#[derive(Clone, Debug, PartialEq, Eq)]
pub struct CollectionSet {
    pub(crate) numbers: Vec<u32>,
    pub(crate) home: Home,
}

macro_rules! number {
    ($(#[$doc:meta])* $name:ident) => {
        $(#[$doc])*
        #[derive(Clone, Copy, Debug, PartialEq, Eq, PartialOrd, Ord, Hash)]
        pub struct $name {
            pub(crate) number: u32,
            pub(crate) home: Home,
        }

        impl $name {
            /// Its number, from 0 in the order of the heap.
            pub fn number(self) -> u32 {
                self.number
            }
        }
    };
}

number!(
    /// A slot of one heap, and the place that a reference to it means.
    Slot
);
number!(
    /// A card of one heap.
    Card
);
number!(
    /// A region of one heap.
    Region
);

impl Slot {
    /// The card that it lies on.
    pub fn card(self) -> Card {
        let Slot { number, home } = self;
        let number = number / home.slots;
        Card { number, home }
    }

    /// The region that it lies in.
    pub fn region(self) -> Region {
        self.card().region()
    }
}

impl Card {
    /// The region that it lies in.
    pub fn region(self) -> Region {
        let Card { number, home } = self;
        let number = number / home.cards;
        Region { number, home }
    }

    /// Its slots, in order.
    pub fn slots(self) -> impl DoubleEndedIterator<Item = Slot> + ExactSizeIterator + Clone {
        let Card { number, home } = self;
        let first = number * home.slots;
        (first..first + home.slots).map(move |number| Slot { number, home })
    }
}

impl Region {
    /// Its cards, in order.
    pub fn cards(self) -> impl DoubleEndedIterator<Item = Card> + ExactSizeIterator + Clone {
        let Region { number, home } = self;
        let first = number * home.cards;
        (first..first + home.cards).map(move |number| Card { number, home })
    }
}

/// The numbers of the heap that a type is over, and its `Debug`.
macro_rules! numbers_of {
    ($name:ident $(<$lifetime:lifetime>)?, $($field:ident).+) => {
        impl $name $(<$lifetime>)? {
            /// The counts of its heap.
            pub fn counts(&self) -> $crate::Counts {
                self.$($field).+.counts
            }

            /// The slot of this number.
            ///
            /// Refused with [`Refusal::NoSlot`](crate::Refusal::NoSlot) if the heap has none.
            pub fn slot(&self, number: u32) -> Result<$crate::Slot, $crate::Refusal> {
                self.$($field).+.slot(number)
            }

            /// The card of this number.
            ///
            /// Refused with [`Refusal::NoCard`](crate::Refusal::NoCard) if the heap has none.
            pub fn card(&self, number: u32) -> Result<$crate::Card, $crate::Refusal> {
                self.$($field).+.card(number)
            }

            /// The region of this number.
            ///
            /// Refused with [`Refusal::NoRegion`](crate::Refusal::NoRegion) if the heap has none.
            pub fn region(&self, number: u32) -> Result<$crate::Region, $crate::Refusal> {
                self.$($field).+.region(number)
            }
        }

        impl std::fmt::Debug for $name $(<$lifetime>)? {
            fn fmt(&self, f: &mut std::fmt::Formatter<'_>) -> std::fmt::Result {
                let mut shown = f.debug_struct(stringify!($name));
                shown.field("counts", &self.counts()).finish_non_exhaustive()
            }
        }
    };
}
pub(crate) use numbers_of;

/// The numbers that a heap has.
#[derive(Clone, Copy, Debug)]
pub(crate) struct Numbers {
    pub counts: Counts,
    pub home: Home,
}

impl Numbers {
    pub fn all_cards(&self) -> u32 {
        self.counts.regions * self.counts.cards
    }

    pub fn slot(&self, number: u32) -> Result<Slot, Refusal> {
        let (home, all) = (self.home, self.all_cards() * self.counts.slots);
        let slot = (number < all).then_some(Slot { number, home });
        slot.ok_or(Refusal::NoSlot)
    }

    pub fn card(&self, number: u32) -> Result<Card, Refusal> {
        let (home, all) = (self.home, self.all_cards());
        let card = (number < all).then_some(Card { number, home });
        card.ok_or(Refusal::NoCard)
    }

    pub fn region(&self, number: u32) -> Result<Region, Refusal> {
        let (home, all) = (self.home, self.counts.regions);
        let region = (number < all).then_some(Region { number, home });
        region.ok_or(Refusal::NoRegion)
    }

    /// What the library's word for a reference means. Its word for null is no slot's number.
    pub fn reference(&self, word: u32) -> Option<Slot> {
        self.slot(word).ok()
    }

    /// The cards that a call wrote to the front of an array.
    pub fn cards_of(&self, numbers: &[u32], count: u32) -> Vec<Card> {
        let home = self.home;
        let written = numbers.iter().take(count as usize);
        written.map(|&number| Card { number, home }).collect()
    }

    /// Refuses what is of another heap.
    pub fn has(&self, home: Home) -> Result<(), Refusal> {
        if home == self.home {
            Ok(())
        } else {
            Err(Refusal::OtherHeap)
        }
    }

    /// The numbers of regions, as the library takes them.
    ///
    /// Refused with [`Refusal::OtherHeap`] if any region is another heap's.
    pub fn set_of(&self, regions: &[Region]) -> Result<CollectionSet, Refusal> {
        let number = |region: &Region| self.has(region.home).map(|()| region.number);
        let numbers = regions.iter().map(number).collect::<Result<_, _>>()?;
        let home = self.home;
        Ok(CollectionSet { numbers, home })
    }

    /// Refused with [`Refusal::OtherHeap`] if the slot is another heap's, or with
    /// [`Refusal::NoSlot`] if the heap has fewer slots from it on.
    pub fn has_row(&self, first: Slot, count: usize) -> Result<(), Refusal> {
        self.has(first.home)?;
        if count > (self.all_cards() * self.counts.slots - first.number) as usize {
            return Err(Refusal::NoSlot);
        }
        Ok(())
    }

    /// The words of a store.
    pub fn words_of(&self, slot: Slot, target: Option<Slot>) -> Result<(u32, u32), Refusal> {
        self.has(slot.home)?;
        if let Some(target) = target {
            self.has(target.home)?;
        }
        let Reference { slot, target } = Reference::of(slot, target);
        Ok((slot, target))
    }

    /// The least slot that a check finds to differ from what memory has, whose references the check
    /// is given by blocks that lie on the stack.
    ///
    /// Refused with [`Refusal::OtherHeap`] if any slot is another heap's, or with
    /// [`Refusal::NoSlot`] if the range ends behind the last slot.
    pub fn first_differing(
        &self,
        first: Slot,
        memory: &[Option<Slot>],
        mut check: impl FnMut(u32, &[u32], &mut u32) -> u32,
    ) -> Result<Option<Slot>, Refusal> {
        for slot in memory.iter().flatten().chain([&first]) {
            self.has(slot.home)?;
        }
        let (mut number, all) = (first.number, self.all_cards() * self.counts.slots);
        if memory.len() > (all - number) as usize {
            return Err(Refusal::NoSlot);
        }
        for block in memory.chunks(LOG) {
            let (mut words, mut differing) = ([NULL; LOG], NULL);
            for (word, slot) in words.iter_mut().zip(block) {
                *word = slot.map_or(NULL, |slot| slot.number);
            }
            done(check(number, &words[..block.len()], &mut differing))?;
            if let Some(slot) = self.reference(differing) {
                return Ok(Some(slot));
            }
            number += block.len() as u32;
        }
        Ok(None)
    }

    /// These stores as the library takes them, by blocks that lie on the stack.
    ///
    /// Refused with [`Refusal::OtherHeap`] if any slot or target is another heap's.
    pub fn blocks<'a>(
        &self,
        stores: &'a [(Slot, Option<Slot>)],
    ) -> Result<impl Iterator<Item = Block> + 'a, Refusal> {
        for &(slot, target) in stores {
            self.words_of(slot, target)?;
        }
        Ok(stores.chunks(LOG).map(Block::of))
    }
}

/// At most [`LOG`] stores, as the library takes them.
pub struct Block {
    room: [Reference; LOG],
    count: usize,
}

impl Block {
    fn of(stores: &[(Slot, Option<Slot>)]) -> Block {
        let none = Reference {
            slot: 0,
            target: NULL,
        };
        let mut room = [none; LOG];
        for (word, &(slot, target)) in room.iter_mut().zip(stores) {
            *word = Reference::of(slot, target);
        }
        let count = stores.len();
        Block { room, count }
    }

    /// The stores of the block, in order.
    pub fn stores(&self) -> &[Reference] {
        &self.room[..self.count]
    }
}

impl Reference {
    fn of(slot: Slot, target: Option<Slot>) -> Reference {
        Reference {
            slot: slot.number,
            target: target.map_or(NULL, |target| target.number),
        }
    }
}
