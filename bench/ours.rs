//! Our sender, through host/saltdoodle.rs.

use crate::case::{Case, Fields, CLOCK, FDT_LENGTH, HOUR};
use crate::saltdoodle::*;

const UNTOUCHED: u64 = 0x5EED_5EED_5EED_5EED;

/// The sender that is lent, and words behind it that no call may touch.
#[repr(C, align(64))]
struct Room {
    sender: SdSender,
    behind: [u64; 1024],
}

fn set_up_of(case: &Case) -> SdSetup {
    SdSetup {
        sizes: SdSizes {
            e: case.e,
            b: case.b,
        },
        window: case.window,
        count: case.sessions as u64,
        priorities: [0, 1, 2, 3],
        width: 32,
        first_toi: 1,
        first_fdt_id: 1,
        validity: HOUR,
        from_start: false,
        interval: HOUR,
        object_store: (case.objects * case.length) as u64,
        fdt_store: FDT_LENGTH as u64,
    }
}

/// Object k, which is sent once, as fast as it is asked for.
fn object_of(case: &Case, k: usize) -> SdObject {
    SdObject {
        priority: case.priority(k),
        part: SdPart {
            start: case.start(k) as u64,
            size: case.length as u64,
        },
        own: false,
        sizes: SdSizes { e: 0, b: 0 },
        plan: SdPlan {
            most: 1,
            repeats: false,
            from_start: false,
            interval: 0,
            paced: false,
            by_time: false,
            target: 0,
            stop_at_once: false,
        },
        start: SdTime {
            known: false,
            at: 0,
        },
        named: false,
        toi: 0,
    }
}

pub struct Ours(Box<Room>);

impl Ours {
    /// All objects added, and an FDT published.
    pub fn new(case: &Case) -> Ours {
        let mut ours = Ours(Box::new(Room {
            sender: SdSender::zeros(),
            behind: [UNTOUCHED; 1024],
        }));
        let sender = &mut ours.0.sender;
        // The set-up comes first.
        unsafe {
            assert_eq!(sd_set_up(sender, set_up_of(case)), 0);
            for k in 0..case.objects {
                let answer = sd_add(sender, object_of(case, k));
                assert_eq!((answer.refused, answer.toi), (0, 1 + k as u64));
            }
            let whole = SdPart {
                start: 0,
                size: FDT_LENGTH as u64,
            };
            assert_eq!(sd_publish(sender, CLOCK, whole), 0);
        }
        assert!(
            ours.0.behind.iter().all(|w| *w == UNTOUCHED),
            "a word behind the sender is written"
        );
        ours
    }

    pub fn run_fdt(&mut self) -> SdSent {
        unsafe { sd_run_fdt(&mut self.0.sender, CLOCK, SdPart { start: 0, size: 0 }) }
    }

    #[inline]
    pub fn run(&mut self, session: usize) -> SdSent {
        unsafe { sd_run(&mut self.0.sender, session as u64, CLOCK) }
    }
}

/// What a packet says.
pub fn fields(p: &SdPacket) -> Fields {
    let s = &p.symbol;
    Fields {
        is_fdt: p.is_fdt,
        toi: p.toi,
        fdt_id: p.fdt_id,
        sbn: s.sbn,
        esi: s.esi,
        close: s.close,
        total: s.transfer_length,
        symbols: s.symbols,
        start: s.payload.start,
        length: s.payload.size,
    }
}

/// The payload, copied into the send buffer.
#[inline]
pub fn copy(p: &SdPacket, store: &[u8], buffer: &mut [u8]) -> usize {
    let SdPart { start, size } = p.symbol.payload;
    let payload = &store[start as usize..(start + size) as usize];
    buffer[..payload.len()].copy_from_slice(payload);
    payload.len()
}

/// The bytes that oracle/standins/flute/common/alc.rs makes of a packet, in the send buffer.
#[inline]
pub fn write(p: &SdPacket, store: &[u8], buffer: &mut [u8]) -> usize {
    let s = &p.symbol;
    let (head, rest) = buffer.split_at_mut(43);
    head[..16].copy_from_slice(&(p.toi as u128).to_be_bytes());
    head[16] = p.is_fdt as u8;
    head[17..21].copy_from_slice(&p.fdt_id.to_be_bytes());
    head[21..25].copy_from_slice(&s.sbn.to_be_bytes());
    head[25..29].copy_from_slice(&s.esi.to_be_bytes());
    head[29] = s.close as u8;
    head[30..38].copy_from_slice(&s.transfer_length.to_be_bytes());
    head[38..42].copy_from_slice(&(s.symbols as u32).to_be_bytes());
    head[42] = 0;
    43 + copy(p, store, rest)
}
