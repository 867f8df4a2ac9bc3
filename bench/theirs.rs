//! flute's sender: what `Sender` has, with the sessions in the order of their numbers.

use crate::case::{Case, Fields, CLOCK, FDT_LENGTH, HOUR};
use flute::common::{alc, lct::Cenc, oti::Oti, udpendpoint::UDPEndpoint, Profile};
use flute::sender::fdt::Fdt;
use flute::sender::objectdesc::{CarouselRepeatMode, ObjectDesc, TransferConfig};
use flute::sender::observer::ObserverList;
use flute::sender::sendersession::SenderSession;
use flute::sender::{FDTPublishMode, FdtXmlProfile, TOIMaxLength};
use std::time::{Duration, SystemTime, UNIX_EPOCH};

pub struct Theirs {
    fdt: Fdt,
    fdt_session: SenderSession,
    sessions: Vec<SenderSession>,
    now: SystemTime,
}

impl Theirs {
    /// All objects added, and an FDT published.
    pub fn new(case: &Case, store: &[u8]) -> Theirs {
        let session = |priority: u32, fdt_only: bool| {
            let endpoint = UDPEndpoint::new(None, String::new(), 0);
            let window = case.window as usize;
            SenderSession::new(priority, 1, window, fdt_only, Profile::RFC6726, endpoint)
        };
        let mut theirs = Theirs {
            fdt: Fdt::new(
                1,
                1,
                &Oti::new_no_code(case.e as u16, case.b as u16),
                Cenc::Null,
                Duration::from_nanos(HOUR),
                CarouselRepeatMode::DelayBetweenTransfers(Duration::from_nanos(HOUR)),
                false,
                ObserverList::new(),
                TOIMaxLength::ToiMax32,
                Some(1),
                None,
                FDTPublishMode::FullFDT,
                FdtXmlProfile::Extended,
            ),
            fdt_session: session(0, true),
            sessions: (0..case.sessions)
                .map(|i| session(i as u32, false))
                .collect(),
            now: UNIX_EPOCH + Duration::from_nanos(CLOCK),
        };
        for k in 0..case.objects {
            let content = store[case.start(k)..case.start(k) + case.length].to_vec();
            theirs.add(case.priority(k), content);
        }
        quick_xml::set_draft((0..FDT_LENGTH as u8).map(char::from).collect());
        theirs.fdt.publish(theirs.now).unwrap();
        theirs
    }

    /// An object that is sent once, as fast as it is asked for.
    fn add(&mut self, priority: u32, content: Vec<u8>) {
        let config = TransferConfig {
            max_transfer_count: 1,
            allow_immediate_stop_before_first_transfer: Some(false),
            ..Default::default()
        };
        let location = url::Url::parse("file:///object").unwrap();
        let kind = "application/octet-stream";
        let object = ObjectDesc::create_from_buffer(content, kind, &location, false, config);
        self.fdt.add_object(priority, object.unwrap()).unwrap();
    }

    pub fn run_fdt(&mut self) -> Option<Vec<u8>> {
        self.fdt_session.run(&mut self.fdt, self.now)
    }

    #[inline]
    pub fn run(&mut self, session: usize) -> Option<Vec<u8>> {
        self.sessions[session].run(&mut self.fdt, self.now)
    }
}

/// What a packet says. Its payload tells its start: word i of the store is i, and byte i of the FDT.
pub fn fields(data: &[u8]) -> Fields {
    let pkt = alc::read_alc_pkt(data);
    let start = match pkt.fdt_id {
        None => 8 * u64::from_le_bytes(pkt.payload[..8].try_into().unwrap()),
        Some(_) => pkt.payload[0] as u64,
    };
    Fields {
        is_fdt: pkt.fdt_id.is_some(),
        toi: pkt.toi as u64,
        fdt_id: pkt.fdt_id.unwrap_or(0),
        sbn: pkt.sbn,
        esi: pkt.esi,
        close: pkt.close_object,
        total: pkt.transfer_length,
        symbols: pkt.source_block_length as u64,
        start,
        length: pkt.payload.len() as u64,
    }
}
