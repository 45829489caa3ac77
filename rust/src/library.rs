//! The calls of `include/g1.h`, as they are.
use crate::{Counts, Totals};
use std::ffi::{c_char, c_void};

#[repr(C)]
#[derive(Default)]
pub struct Tally {
    pub refined: u32,
    pub hot: u32,
    pub skipped: u32,
}

#[repr(C)]
#[derive(Clone, Copy)]
pub struct Reference {
    pub slot: u32,
    pub target: u32,
}

#[repr(C)]
#[derive(Default)]
pub struct Batch {
    pub stored: u32,
    pub logged: u32,
}

#[repr(C)]
pub struct Handle {
    pub core: *mut c_void,
}

#[repr(C)]
#[derive(Clone, Copy)]
pub struct RacerHandle {
    pub racer: *mut c_void,
}

#[repr(C)]
#[derive(Clone, Copy)]
pub struct SweeperHandle {
    pub sweeper: *mut c_void,
}

#[repr(C)]
#[derive(Clone, Copy)]
pub struct ReaderHandle {
    pub reader: *mut c_void,
}

#[repr(C)]
pub struct HeapHandle {
    pub heap: *mut c_void,
}

// SAFETY: the prover has shown of what each handle has that it may go to another thread.
unsafe impl Send for Handle {}
unsafe impl Send for HeapHandle {}
unsafe impl Send for RacerHandle {}
unsafe impl Send for SweeperHandle {}
unsafe impl Send for ReaderHandle {}

// SAFETY: calls alone write a handle or what it has, and the wrapper makes each of them by `&mut`.
// So whoever shares a handle can do no more than read its pointer.
unsafe impl Sync for Handle {}
unsafe impl Sync for HeapHandle {}
unsafe impl Sync for RacerHandle {}
unsafe impl Sync for SweeperHandle {}
unsafe impl Sync for ReaderHandle {}

extern "C" {
    pub fn g1_version() -> *const c_char;
    pub fn g1_open(handle: *mut Handle, counts: *const Counts, hot: u32, ring: u32) -> u32;
    pub fn g1_close(handle: *mut Handle) -> u32;
    pub fn g1_store(handle: *mut Handle, slot: u32, target: u32, kind: *mut u32) -> u32;
    pub fn g1_store_all(
        handle: *mut Handle,
        stores: *const Reference,
        stores_length: usize,
        cards: *mut u32,
        cards_length: usize,
        batch: *mut Batch,
    ) -> u32;
    pub fn g1_refine(
        handle: *mut Handle,
        cards: *const u32,
        cards_length: usize,
        refined: *mut u32,
        refined_length: usize,
        tally: *mut Tally,
    ) -> u32;
    pub fn g1_drain(
        handle: *mut Handle,
        region: u32,
        cards: *mut u32,
        cards_length: usize,
        count: *mut u32,
        refined: *mut u32,
        refined_length: usize,
        refined_count: *mut u32,
    ) -> u32;
    pub fn g1_target(handle: *mut Handle, slot: u32, target: *mut u32) -> u32;
    pub fn g1_is_pending(handle: *mut Handle, card: u32, pending: *mut u32) -> u32;
    pub fn g1_status(handle: *mut Handle, totals: *mut Totals) -> u32;
    pub fn g1_members(
        handle: *mut Handle,
        region: u32,
        cards: *mut u32,
        cards_length: usize,
        count: *mut u32,
    ) -> u32;
    pub fn g1_clear(handle: *mut Handle, region: u32, detail: *mut u32) -> u32;
    pub fn g1_redirect(
        handle: *mut Handle,
        from: u32,
        to: u32,
        moved: *mut u32,
        refined: *mut u32,
        refined_length: usize,
        refined_count: *mut u32,
    ) -> u32;
    pub fn g1_copy(handle: *mut Handle, from: u32, to: u32, count: u32) -> u32;
    pub fn g1_verify(
        handle: *mut Handle,
        first: u32,
        count: u32,
        references: *const u32,
        references_length: usize,
        differing: *mut u32,
        missing: *mut u32,
    ) -> u32;
    pub fn g1_heap_open(
        heap: *mut HeapHandle,
        counts: *const Counts,
        racers: u32,
        sweepers: u32,
    ) -> u32;
    pub fn g1_heap_resume(
        heap: *mut HeapHandle,
        racers: *mut RacerHandle,
        racers_length: usize,
        sweepers: *mut SweeperHandle,
        sweepers_length: usize,
    ) -> u32;
    pub fn g1_heap_pause(
        heap: *mut HeapHandle,
        racers: *mut RacerHandle,
        racers_length: usize,
        sweepers: *mut SweeperHandle,
        sweepers_length: usize,
    ) -> u32;
    pub fn g1_heap_close(heap: *mut HeapHandle) -> u32;
    pub fn g1_heap_words(heap: *mut HeapHandle, words: *mut *const u64) -> u32;
    pub fn g1_heap_is_pending(heap: *mut HeapHandle, card: u32, pending: *mut u32) -> u32;
    pub fn g1_heap_status(heap: *mut HeapHandle, totals: *mut Totals) -> u32;
    pub fn g1_heap_next_member(
        heap: *mut HeapHandle,
        region: u32,
        from: u32,
        card: *mut u32,
    ) -> u32;
    pub fn g1_heap_next_into(
        heap: *mut HeapHandle,
        regions: *const u32,
        regions_length: usize,
        from: u32,
        card: *mut u32,
    ) -> u32;
    pub fn g1_heap_next_dirty(heap: *mut HeapHandle, from: u32, card: *mut u32) -> u32;
    pub fn g1_heap_refine(heap: *mut HeapHandle) -> u32;
    pub fn g1_heap_store(heap: *mut HeapHandle, slot: u32, target: u32, kind: *mut u32) -> u32;
    pub fn g1_heap_store_all(
        heap: *mut HeapHandle,
        stores: *const Reference,
        stores_length: usize,
        stored: *mut usize,
    ) -> u32;
    pub fn g1_heap_store_words(
        heap: *mut HeapHandle,
        slot: u32,
        words: *const u64,
        words_length: usize,
    ) -> u32;
    pub fn g1_heap_store_data(heap: *mut HeapHandle, slot: u32, word: u64) -> u32;
    pub fn g1_heap_copy(heap: *mut HeapHandle, from: u32, to: u32, count: u32) -> u32;
    pub fn g1_heap_clear(heap: *mut HeapHandle, region: u32, detail: *mut u32) -> u32;
    pub fn g1_heap_free(
        heap: *mut HeapHandle,
        regions: *const u32,
        regions_length: usize,
        detail: *mut u32,
    ) -> u32;
    pub fn g1_heap_redirect(heap: *mut HeapHandle, from: u32, to: u32, moved: *mut u32) -> u32;
    pub fn g1_heap_wipe(heap: *mut HeapHandle, region: u32) -> u32;
    pub fn g1_heap_forget(heap: *mut HeapHandle, region: u32) -> u32;
    pub fn g1_heap_verify(
        heap: *mut HeapHandle,
        first: u32,
        count: u32,
        references: *const u32,
        references_length: usize,
        differing: *mut u32,
        missing: *mut u32,
    ) -> u32;
    pub fn g1_race_store(racer: *mut RacerHandle, slot: u32, target: u32, kind: *mut u32) -> u32;
    pub fn g1_race_swap(
        racer: *mut RacerHandle,
        slot: u32,
        target: u32,
        old: *mut u32,
        kind: *mut u32,
    ) -> u32;
    pub fn g1_race_compare_exchange(
        racer: *mut RacerHandle,
        slot: u32,
        expected: u32,
        target: u32,
        found: *mut u32,
        kind: *mut u32,
    ) -> u32;
    pub fn g1_race_store_all(
        racer: *mut RacerHandle,
        stores: *const Reference,
        stores_length: usize,
        stored: *mut usize,
    ) -> u32;
    pub fn g1_race_store_words(
        racer: *mut RacerHandle,
        slot: u32,
        words: *const u64,
        words_length: usize,
        stored: *mut usize,
    ) -> u32;
    pub fn g1_race_store_data(racer: *mut RacerHandle, slot: u32, word: u64, old: *mut u64) -> u32;
    pub fn g1_race_swap_word(
        racer: *mut RacerHandle,
        slot: u32,
        word: u64,
        old: *mut u64,
        kind: *mut u32,
    ) -> u32;
    pub fn g1_race_compare_exchange_word(
        racer: *mut RacerHandle,
        slot: u32,
        expected: u64,
        word: u64,
        found: *mut u64,
        kind: *mut u32,
    ) -> u32;
    pub fn g1_race_take_log(
        racer: *mut RacerHandle,
        cards: *mut u32,
        cards_length: usize,
        count: *mut u32,
    ) -> u32;
    pub fn g1_racer_counts(
        racer: *mut RacerHandle,
        null: *mut u64,
        same_region: *mut u64,
        already_dirty: *mut u64,
        logged: *mut u64,
    ) -> u32;
    pub fn g1_race_refine(sweeper: *mut SweeperHandle, card: u32) -> u32;
    pub fn g1_sweeper_counts(
        sweeper: *mut SweeperHandle,
        refined: *mut u64,
        cleaned: *mut u64,
        references: *mut u64,
    ) -> u32;
    pub fn g1_heap_read(
        heap: *mut HeapHandle,
        readers: *mut ReaderHandle,
        readers_length: usize,
    ) -> u32;
    pub fn g1_heap_read_end(
        heap: *mut HeapHandle,
        readers: *mut ReaderHandle,
        readers_length: usize,
    ) -> u32;
    pub fn g1_reader_target(reader: *mut ReaderHandle, slot: u32, target: *mut u32) -> u32;
    pub fn g1_reader_word(reader: *mut ReaderHandle, slot: u32, word: *mut u64) -> u32;
    pub fn g1_reader_is_pending(reader: *mut ReaderHandle, card: u32, pending: *mut u32) -> u32;
    pub fn g1_reader_has(reader: *mut ReaderHandle, card: u32, region: u32, has: *mut u32) -> u32;
    pub fn g1_reader_next_member(
        reader: *mut ReaderHandle,
        region: u32,
        from: u32,
        card: *mut u32,
    ) -> u32;
}

pub const NULL: u32 = 4_294_967_295;

pub const STORED_NULL: u32 = 0;
pub const STORED_SAME_REGION: u32 = 1;
pub const STORED_DIRTY: u32 = 2;
pub const STORED_LOGGED: u32 = 3;

pub const DONE: u32 = 0;
pub const SHORT: u32 = 1;
pub const DIFFERS: u32 = 2;
pub const FULL: u32 = 4;
pub const NO_MEMORY: u32 = 10;
pub const BAD_LAYOUT: u32 = 11;
pub const BAD_SETTINGS: u32 = 12;
pub const NO_SLOT: u32 = 13;
pub const NO_CARD: u32 = 14;
pub const NO_REGION: u32 = 15;
pub const TOO_MANY_CARDS: u32 = 17;
pub const SAME_REGION: u32 = 18;
pub const STILL_PENDING: u32 = 19;
pub const STILL_REFERENCED: u32 = 20;
pub const LOG_FULL: u32 = 22;
pub const BAD_HANDLES: u32 = 23;
pub const BAD_WORD: u32 = 27;
