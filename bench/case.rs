//! What both senders are given.

/// Every call has the same clock; nothing is paced, and the FDT is not due again.
pub const CLOCK: u64 = 1_000_000_000_000;
pub const HOUR: u64 = 3_600_000_000_000;
/// Byte i of the FDT is i.
pub const FDT_LENGTH: usize = 120;

/// Objects of one length, dealt in turn to the sessions, one behind the other in the store.
#[derive(Clone, Copy, PartialEq)]
pub struct Case {
    pub e: u64,
    pub b: u64,
    pub window: u64,
    pub sessions: usize,
    pub objects: usize,
    pub length: usize,
}

impl Case {
    pub fn start(&self, k: usize) -> usize {
        k * self.length
    }

    pub fn priority(&self, k: usize) -> u32 {
        (k % self.sessions) as u32
    }

    pub fn packets(&self) -> u64 {
        self.objects as u64 * (self.length as u64).div_ceil(self.e)
    }

    /// Word i of the store is i, so that a payload tells where it starts.
    pub fn store(&self) -> Vec<u8> {
        let words = self.objects * self.length / 8;
        (0..words as u64).flat_map(|i| i.to_le_bytes()).collect()
    }

    pub fn words(&self) -> Vec<String> {
        let Case {
            e,
            b,
            window,
            sessions,
            objects,
            length,
        } = *self;
        [e, b, window, sessions as u64, objects as u64, length as u64]
            .iter()
            .map(|n| n.to_string())
            .collect()
    }

    pub fn read(words: &[String]) -> Case {
        let n: Vec<u64> = words.iter().map(|w| w.parse().unwrap()).collect();
        Case {
            e: n[0],
            b: n[1],
            window: n[2],
            sessions: n[3] as usize,
            objects: n[4] as usize,
            length: n[5] as usize,
        }
    }
}

/// What a packet says, of either side.
#[derive(Debug, PartialEq)]
pub struct Fields {
    pub is_fdt: bool,
    pub toi: u64,
    pub fdt_id: u32,
    pub sbn: u32,
    pub esi: u32,
    pub close: bool,
    pub total: u64,
    pub symbols: u64,
    pub start: u64,
    pub length: u64,
}
