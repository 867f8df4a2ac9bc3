//! A sender for a host in Rust: the functions of libsaltdoodle.a (`bash host/build`; x86-64 Linux), and the structs that they take and give.
//!
//! saltdoodle.h says what a host keeps to, what each number means, and why a call is refused. What the compiler does not ensure here:
//! - A sender comes from `SdSender::zeros()`, and `sd_set_up` comes first: the other calls need a sender that an accepted set-up filled.
//! - A call has 128 KiB of stack.
//!
//! As a module: `#[path = "../host/saltdoodle.rs"] mod saltdoodle;`, and `rustc -L native=target/staticlib -l static=saltdoodle`.
#![allow(dead_code)]

use std::mem::{align_of, offset_of, size_of};

pub const SD_RECORD_SIZE: usize = 28;

/// The sender: its size and alignment, and nothing for the host to read.
#[repr(C)]
pub struct SdSender {
    room: [u64; 1035],
}

impl SdSender {
    /// What may stand there before a set-up.
    pub const fn zeros() -> SdSender {
        SdSender { room: [0; 1035] }
    }
}

/// A part of a store: its first byte, and how many.
#[repr(C)]
#[derive(Clone, Copy, Debug, PartialEq, Eq)]
pub struct SdPart {
    pub start: u64,
    pub size: u64,
}

/// Symbol length E, in bytes, and largest block B, in symbols: each in 1 .. 65535.
#[repr(C)]
#[derive(Clone, Copy, Debug)]
pub struct SdSizes {
    pub e: u64,
    pub b: u64,
}

/// A time, where `known`.
#[repr(C)]
#[derive(Clone, Copy, Debug)]
pub struct SdTime {
    pub known: bool,
    pub at: u64,
}

/// How an object is sent.
#[repr(C)]
#[derive(Clone, Copy, Debug)]
pub struct SdPlan {
    /// Transfers in a round; then the carousel's wait begins, or, without one, the object leaves.
    pub most: u32,
    /// Is there a carousel?
    pub repeats: bool,
    /// Its interval counts from the last start, else from the last end.
    pub from_start: bool,
    pub interval: u64,
    /// Is a transfer spread over a time?
    pub paced: bool,
    /// `target` is a time to end by, else a duration.
    pub by_time: bool,
    pub target: u64,
    /// May it be stopped before it was sent once?
    pub stop_at_once: bool,
}

/// An object to add.
#[repr(C)]
#[derive(Clone, Copy, Debug)]
pub struct SdObject {
    /// That of a session.
    pub priority: u32,
    /// Of the object store.
    pub part: SdPart,
    /// Has it sizes of its own, else those of the set-up?
    pub own: bool,
    pub sizes: SdSizes,
    pub plan: SdPlan,
    /// The earliest start, if any.
    pub start: SdTime,
    /// Has it the reserved number `toi`, else a new one?
    pub named: bool,
    pub toi: u64,
}

/// What is named once.
#[repr(C)]
#[derive(Clone, Copy, Debug)]
pub struct SdSetup {
    pub sizes: SdSizes,
    /// Blocks sent in turn: 1 .. 16.
    pub window: u64,
    /// File sessions: 1 .. 4, numbered from 0.
    pub count: u64,
    /// Of the first `count`.
    pub priorities: [u32; 4],
    /// Of object numbers: 16, 32, 48 or 64 bits.
    pub width: u64,
    pub first_toi: u64,
    /// At most 0xFFFFF.
    pub first_fdt_id: u64,
    /// Of an FDT.
    pub validity: u64,
    /// An FDT is sent again an interval after its last start, else after its last end.
    pub from_start: bool,
    pub interval: u64,
    /// The lengths of the stores, each at most 2^40.
    pub object_store: u64,
    pub fdt_store: u64,
}

/// An object's number, or the refusal.
#[repr(C)]
#[derive(Clone, Copy, Debug)]
pub struct SdNumbered {
    pub refused: u32,
    pub toi: u64,
}

/// How often an object was sent in all, where it is listed.
#[repr(C)]
#[derive(Clone, Copy, Debug)]
pub struct SdCounted {
    pub listed: bool,
    pub total: u64,
}

/// What a packet says of its symbol.
#[repr(C)]
#[derive(Clone, Copy, Debug)]
pub struct SdSymbol {
    /// Its block.
    pub sbn: u32,
    /// Its number in the block.
    pub esi: u32,
    /// Of the block.
    pub symbols: u64,
    /// Of the object store or the FDT store.
    pub payload: SdPart,
    pub transfer_length: u64,
    /// The last packet of the last transfer, or of one that is stopped; always on an empty object.
    pub close: bool,
}

/// A packet: of an FDT (its object number is 0) or of an object (its FDT id says nothing).
#[repr(C)]
#[derive(Clone, Copy, Debug)]
pub struct SdPacket {
    pub is_fdt: bool,
    pub toi: u64,
    pub fdt_id: u32,
    pub symbol: SdSymbol,
}

/// What a run comes to: the packet, where `sent`.
#[repr(C)]
#[derive(Clone, Copy, Debug)]
pub struct SdSent {
    pub refused: u32,
    /// Did an FDT run take the draft?
    pub taken: bool,
    pub sent: bool,
    pub packet: SdPacket,
}

/// Where a payload stands: in the FDT store or the object store.
#[repr(C)]
#[derive(Clone, Copy, Debug)]
pub struct SdPlace {
    pub of_fdt: bool,
    pub start: u64,
    pub size: u64,
}

/// What a record says, or the refusal.
#[repr(C)]
#[derive(Clone, Copy, Debug)]
pub struct SdRecord {
    pub refused: u32,
    pub is_fdt: bool,
    pub close: bool,
    pub fdt_id: u32,
    pub block: u32,
    pub symbol: u32,
    pub toi: u64,
    /// Of the payload.
    pub length: u64,
    /// Of the transfer.
    pub total: u64,
    /// Of the block.
    pub symbols: u64,
}

extern "C" {
    /// Fills the sender.
    pub fn sd_set_up(s: &mut SdSender, z: SdSetup) -> u32;

    /// Reserves an object number.
    pub fn sd_reserve(s: &mut SdSender) -> SdNumbered;

    /// Gives up a reservation that no object has.
    pub fn sd_release(s: &mut SdSender, toi: u64) -> u32;

    /// Adds an object.
    pub fn sd_add(s: &mut SdSender, o: SdObject) -> SdNumbered;

    /// Takes an object off the list; was it there?
    pub fn sd_remove(s: &mut SdSender, toi: u64) -> bool;

    /// Forgets when an object was last sent, and sets its earliest start if one is known, unless it is being sent; is it listed?
    pub fn sd_trigger(s: &mut SdSender, toi: u64, start: SdTime) -> bool;

    /// From here on no object is added.
    pub fn sd_complete(s: &mut SdSender);

    /// Queues an FDT: a part of the FDT store.
    pub fn sd_publish(s: &mut SdSender, at: u64, part: SdPart) -> u32;

    /// Asks the FDT session for a packet; `draft` is the FDT to publish if it is time for one, and of length 0 is none.
    pub fn sd_run_fdt(s: &mut SdSender, at: u64, draft: SdPart) -> SdSent;

    /// Asks file session i for a packet.
    pub fn sd_run(s: &mut SdSender, i: u64, at: u64) -> SdSent;

    /// Is the object listed?
    pub fn sd_listed(s: &SdSender, toi: u64) -> bool;

    /// How often was it sent?
    pub fn sd_transfers(s: &SdSender, toi: u64) -> SdCounted;

    /// Where the packet's payload stands, in stores of these lengths; without a packet, or past its store, the object store's empty part.
    pub fn sd_payload(object_store: u64, fdt_store: u64, s: SdSent) -> SdPlace;

    /// Writes the packet's record; where it is refused, nothing is written.
    pub fn sd_record_write(out: &mut [u8; SD_RECORD_SIZE], s: SdSent) -> u32;

    /// Reads a record.
    pub fn sd_record_read(bytes: &[u8; SD_RECORD_SIZE]) -> SdRecord;
}

/// The layout that libsaltdoodle.a has.
macro_rules! same {
    ($type:ty, $size:expr $(, $field:ident $at:expr)*) => {
        const _: () = {
            assert!(size_of::<$type>() == $size);
            $(assert!(offset_of!($type, $field) == $at);)*
        };
    };
}

const _: () = assert!(size_of::<bool>() == 1 && align_of::<SdSender>() == 8);
same!(SdSender, 8280);
same!(SdPart, 16, start 0, size 8);
same!(SdSizes, 16, e 0, b 8);
same!(SdTime, 16, known 0, at 8);
same!(
    SdPlan,
    40,
    most 0,
    repeats 4,
    from_start 5,
    interval 8,
    paced 16,
    by_time 17,
    target 24,
    stop_at_once 32
);
same!(SdObject, 120, priority 0, part 8, own 24, sizes 32, plan 48, start 88, named 104, toi 112);
same!(
    SdSetup,
    112,
    sizes 0,
    window 16,
    count 24,
    priorities 32,
    width 48,
    first_toi 56,
    first_fdt_id 64,
    validity 72,
    from_start 80,
    interval 88,
    object_store 96,
    fdt_store 104
);
same!(SdNumbered, 16, refused 0, toi 8);
same!(SdCounted, 16, listed 0, total 8);
same!(SdSymbol, 48, sbn 0, esi 4, symbols 8, payload 16, transfer_length 32, close 40);
same!(SdPacket, 72, is_fdt 0, toi 8, fdt_id 16, symbol 24);
same!(SdSent, 80, refused 0, taken 4, sent 5, packet 8);
same!(SdPlace, 24, of_fdt 0, start 8, size 16);
same!(
    SdRecord,
    56,
    refused 0,
    is_fdt 4,
    close 5,
    fdt_id 8,
    block 12,
    symbol 16,
    toi 24,
    length 32,
    total 40,
    symbols 48
);
