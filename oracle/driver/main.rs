//! flute's sender, played from a script on standard input. ../README.md has the language.
//!
//! Every script runs on seven desks at once. They differ only in the bytes of their stores:
//! the last has the real ones, and desk k has at each place bits 7k to 7k+6 of the place's own
//! number. So the payloads themselves show which places of the store were sent, and nothing
//! about them has to be worked out here. In all else the seven must answer alike.

use flute::common::pkt::Pkt;
use flute::common::{alc, oti::Oti, partition, udpendpoint::UDPEndpoint, Profile};
use flute::sender::blockencoder::BlockEncoder;
use flute::sender::fdt::Fdt;
use flute::sender::filedesc::FileDesc;
use flute::sender::objectdesc::{
    CarouselRepeatMode, ObjectDesc, TargetAcquisition, TransferConfig,
};
use flute::sender::observer::ObserverList;
use flute::sender::sendersession::SenderSession;
use flute::sender::toiallocator::ToiAllocator;
use flute::sender::{FDTPublishMode, FdtXmlProfile, TOIMaxLength, Toi};
use std::collections::HashMap;
use std::io::{BufRead, Write};
use std::sync::Arc;
use std::time::{Duration, SystemTime, UNIX_EPOCH};

/// Desks whose bytes number the places: 42 bits, where a store needs 40.
const PLANES: u32 = 6;

/// The bytes of one desk's stores.
#[derive(Clone, Copy)]
enum Content {
    Plane(u32),
    Real,
}

impl Content {
    fn object_byte(self, i: u64) -> u8 {
        match self {
            Content::Plane(k) => (i >> (7 * k) & 127) as u8,
            Content::Real => ((i * 167 + i / 251 * 59 + 13) % 256) as u8,
        }
    }

    /// Seven bits, as flute writes an FDT as text.
    fn fdt_byte(self, i: u64) -> u8 {
        match self {
            Content::Plane(k) => (i >> (7 * k) & 127) as u8,
            Content::Real => ((i * 83 + i / 241 * 29 + 7) % 128) as u8,
        }
    }

    fn object(self, start: u64, length: u64) -> Vec<u8> {
        (start..start + length)
            .map(|i| self.object_byte(i))
            .collect()
    }

    fn fdt(self, start: u64, length: u64) -> String {
        (start..start + length)
            .map(|i| self.fdt_byte(i) as char)
            .collect()
    }
}

/// The rest of a command. Every reader answers `None` where the script is at fault.
struct Words<'a>(std::str::SplitWhitespace<'a>);

impl<'a> Words<'a> {
    fn word(&mut self) -> Option<&'a str> {
        self.0.next()
    }

    fn number<T: std::str::FromStr>(&mut self) -> Option<T> {
        self.word()?.parse().ok()
    }

    /// A number or `-`.
    fn maybe<T: std::str::FromStr>(&mut self) -> Option<Option<T>> {
        match self.word()? {
            "-" => Some(None),
            word => word.parse().ok().map(Some),
        }
    }

    fn clock(&mut self) -> Option<SystemTime> {
        self.number().map(time)
    }

    fn carousel(&mut self) -> Option<Option<CarouselRepeatMode>> {
        let mode = self.word()?;
        let interval = Duration::from_nanos(self.number()?);
        match mode {
            "none" => Some(None),
            "delay" => Some(Some(CarouselRepeatMode::DelayBetweenTransfers(interval))),
            "interval" => Some(Some(CarouselRepeatMode::IntervalBetweenStartTimes(
                interval,
            ))),
            _ => None,
        }
    }
}

fn time(nanoseconds: u64) -> SystemTime {
    UNIX_EPOCH + Duration::from_nanos(nanoseconds)
}

enum Answer {
    Line(String),
    /// A packet, and what is printed behind it.
    Packet(Pkt, String),
}

fn line(text: impl ToString) -> Option<Answer> {
    Some(Answer::Line(text.to_string()))
}

fn yes(answer: bool) -> Option<Answer> {
    line(if answer { "yes" } else { "no" })
}

fn sent(packet: Option<Vec<u8>>, behind: String) -> Option<Answer> {
    match packet {
        Some(data) => Some(Answer::Packet(alc::read_alc_pkt(&data), behind)),
        None => line(format!("nothing{behind}")),
    }
}

fn object(content: Vec<u8>, config: TransferConfig) -> Box<ObjectDesc> {
    let location = url::Url::parse("file:///object").unwrap();
    ObjectDesc::create_from_buffer(
        content,
        "application/octet-stream",
        &location,
        false,
        config,
    )
    .unwrap()
}

/// One sender: what `Sender` has, with the sessions in the order of the script, and the
/// reservations that its caller holds.
struct Desk {
    content: Content,
    oti: Oti,
    fdt: Fdt,
    fdt_session: SenderSession,
    sessions: Vec<SenderSession>,
    priorities: Vec<u32>,
    reserved: HashMap<u128, Box<Toi>>,
}

impl Desk {
    /// `setup`.
    fn new(content: Content, words: &mut Words) -> Option<Desk> {
        let oti = Oti::new_no_code(words.number()?, words.number()?);
        let window: usize = words.number()?;
        let count: usize = words.number()?;
        let priorities: Vec<u32> = (0..count).map(|_| words.number()).collect::<Option<_>>()?;
        let width = match words.number()? {
            16 => TOIMaxLength::ToiMax16,
            32 => TOIMaxLength::ToiMax32,
            48 => TOIMaxLength::ToiMax48,
            64 => TOIMaxLength::ToiMax64,
            _ => return None,
        };
        let first_toi: u64 = words.number()?;
        let first_id: u32 = words.number()?;
        let validity = Duration::from_nanos(words.number()?);
        let carousel = words.carousel()??;
        let _store_lengths: (u64, u64) = (words.number()?, words.number()?);

        let session = |priority: u32, fdt_only: bool| {
            let endpoint = UDPEndpoint::new(None, String::new(), 0);
            SenderSession::new(priority, 1, window, fdt_only, Profile::RFC6726, endpoint)
        };
        Some(Desk {
            content,
            fdt: Fdt::new(
                1,
                first_id,
                &oti,
                flute::common::lct::Cenc::Null,
                validity,
                carousel,
                false,
                ObserverList::new(),
                width,
                Some(first_toi as u128),
                None,
                FDTPublishMode::FullFDT,
                FdtXmlProfile::Extended,
            ),
            oti,
            fdt_session: session(0, true),
            sessions: priorities.iter().map(|p| session(*p, false)).collect(),
            priorities,
            reserved: HashMap::new(),
        })
    }

    fn answer(&mut self, command: &str, words: &mut Words) -> Option<Answer> {
        match command {
            "reserve" => {
                let toi = self.fdt.allocate_toi();
                let value = toi.get();
                self.reserved.insert(value, toi);
                line(format!("toi {value}"))
            }
            // To drop a `Toi` is to release it.
            "release" => match self.reserved.remove(&words.number()?) {
                Some(_) => line("ok"),
                None => line("error"),
            },
            "add" => self.add(words),
            "remove" => yes(self.fdt.remove_object(words.number()?)),
            "trigger" => {
                let toi = words.number()?;
                let clock = words.maybe()?.map(time);
                yes(self.fdt.trigger_transfer_at(toi, clock))
            }
            "publish" => {
                let now = words.clock()?;
                quick_xml::set_draft(self.content.fdt(words.number()?, words.number()?));
                match self.fdt.publish(now) {
                    Ok(()) => line("ok"),
                    Err(_) => line("error"),
                }
            }
            "complete" => {
                self.fdt.set_complete();
                line("ok")
            }
            "listed" => yes(self.fdt.is_added(words.number()?)),
            "transfers" => match self.fdt.nb_transfers(words.number()?) {
                Some(count) => line(count),
                None => line("none"),
            },
            "runfdt" => {
                let now = words.clock()?;
                quick_xml::set_draft(self.content.fdt(words.number()?, words.number()?));
                let before = quick_xml::drafts_taken();
                let packet = self.fdt_session.run(&mut self.fdt, now);
                let taken = quick_xml::drafts_taken() - before;
                sent(packet, format!(" taken {taken}"))
            }
            "run" => {
                let session: usize = words.number()?;
                let now = words.clock()?;
                match self.sessions.get_mut(session) {
                    Some(session) => sent(session.run(&mut self.fdt, now), String::new()),
                    None => line("error"),
                }
            }
            _ => None,
        }
    }

    fn add(&mut self, words: &mut Words) -> Option<Answer> {
        let priority: u32 = words.number()?;
        let (start, length) = (words.number()?, words.number()?);
        let (e, b) = (words.maybe::<u16>()?, words.maybe::<u16>()?);
        let oti = (e.is_some() || b.is_some()).then(|| {
            Oti::new_no_code(
                e.unwrap_or(self.oti.encoding_symbol_length),
                b.unwrap_or(self.oti.maximum_source_block_length as u16),
            )
        });
        let max_transfer_count = words.number()?;
        let carousel_mode = words.carousel()?;
        let (target, target_ns) = (words.word()?, words.number()?);
        let target_acquisition = match target {
            "none" => None,
            "within" => Some(TargetAcquisition::WithinDuration(Duration::from_nanos(
                target_ns,
            ))),
            "at" => Some(TargetAcquisition::WithinTime(time(target_ns))),
            _ => return None,
        };
        let transfer_start_time = words.maybe()?.map(time);
        let stop_at_once: u8 = words.number()?;
        let toi = match words.maybe::<u128>()? {
            None => None,
            Some(value) => match self.reserved.remove(&value) {
                Some(toi) => Some(toi),
                None => return line("error"),
            },
        };
        // The test that `Sender::add_object` makes before it hands the object on.
        if !self.priorities.contains(&priority) {
            return line("error");
        }
        let config = TransferConfig {
            max_transfer_count,
            carousel_mode,
            target_acquisition,
            oti,
            transfer_start_time,
            toi,
            allow_immediate_stop_before_first_transfer: Some(stop_at_once == 1),
            ..Default::default()
        };
        let content = self.content.object(start, length);
        match self.fdt.add_object(priority, object(content, config)) {
            Ok(toi) => line(format!("toi {toi}")),
            Err(_) => line("error"),
        }
    }
}

/// Where a payload begins in its store, read from the payloads of all planes.
fn start_of(payloads: &[&[u8]]) -> u64 {
    let place = |at: usize| -> u64 {
        (0..PLANES as usize)
            .map(|k| (payloads[k][at] as u64) << (7 * k))
            .sum()
    };
    let start = place(0);
    for at in 0..payloads[0].len() {
        assert_eq!(
            place(at),
            start + at as u64,
            "a payload is not one part of its store"
        );
    }
    start
}

fn checksum(payload: &[u8]) -> u64 {
    payload.iter().fold(1, |sum, byte| {
        (sum * 257 + *byte as u64 + 1) % 4_294_967_291
    })
}

/// The desks' common answer, as it is printed.
fn agree(answers: &[Answer]) -> String {
    match &answers[0] {
        Answer::Line(text) => {
            for other in answers {
                assert!(
                    matches!(other, Answer::Line(t) if t == text),
                    "the desks differ"
                );
            }
            text.clone()
        }
        Answer::Packet(first, behind) => {
            let mut payloads: Vec<&[u8]> = Vec::new();
            for other in answers {
                let Answer::Packet(pkt, text) = other else {
                    panic!("the desks differ");
                };
                let same = Pkt {
                    payload: first.payload.clone(),
                    ..pkt.clone()
                };
                assert_eq!(
                    format!("{same:?}"),
                    format!("{first:?}"),
                    "the desks differ"
                );
                assert_eq!(text, behind, "the desks differ");
                assert_eq!(pkt.payload.len(), first.payload.len(), "the desks differ");
                payloads.push(&pkt.payload);
            }
            let start = match first.payload.len() {
                0 => "-".to_string(),
                _ => start_of(&payloads).to_string(),
            };
            format!(
                "packet {} {} {} {} {} {} {} {} {} {start} {}{behind}",
                if first.fdt_id.is_some() { "fdt" } else { "obj" },
                first.toi,
                first.fdt_id.map_or("-".to_string(), |id| id.to_string()),
                first.sbn,
                first.esi,
                first.close_object as u8,
                first.transfer_length,
                first.source_block_length,
                first.payload.len(),
                checksum(payloads[PLANES as usize]),
            )
        }
    }
}

/// The commands that need no sender.
fn without_sender(command: &str, words: &mut Words) -> Option<String> {
    let length = |n: Option<u64>| n.map_or("none".to_string(), |n| n.to_string());
    if command == "rawlength" {
        let (large, small, larges) = (words.number()?, words.number()?, words.number()?);
        let (l, e, sbn) = (words.number()?, words.number()?, words.number()?);
        return Some(length(partition::block_length(
            large, small, larges, l, e, sbn,
        )));
    }
    let (l, e, b): (u64, u64, u64) = (words.number()?, words.number()?, words.number()?);
    match command {
        "partition" => {
            let (large, small, larges, blocks) = partition::block_partitioning(b, l, e);
            Some(format!("{large} {small} {larges} {blocks}"))
        }
        "blocklength" => {
            let (large, small, larges, _) = partition::block_partitioning(b, l, e);
            let sbn = words.number()?;
            Some(length(partition::block_length(
                large, small, larges, l, e, sbn,
            )))
        }
        "drain" => {
            let oti = Oti::new_no_code(e.try_into().ok()?, b.try_into().ok()?);
            Some(drain(l, &oti, words.number()?))
        }
        _ => None,
    }
}

/// One transfer, sent once, one line a packet.
fn drain(l: u64, oti: &Oti, window: usize) -> String {
    let packets = |k: u32| -> Vec<Pkt> {
        let toi = ToiAllocator::allocate(&ToiAllocator::new(TOIMaxLength::ToiMax16, Some(1)));
        let config = TransferConfig {
            toi: Some(toi),
            ..Default::default()
        };
        let content = Content::Plane(k).object(0, l);
        let file = Arc::new(FileDesc::new(0, object(content, config), oti, None, false).unwrap());
        let closable = file.is_last_transfer();
        let mut encoder = BlockEncoder::new(file, window, closable).unwrap();
        std::iter::from_fn(|| encoder.read(false)).collect()
    };
    let planes: Vec<Vec<Pkt>> = (0..PLANES).map(packets).collect();
    let mut text = String::new();
    for (i, pkt) in planes[0].iter().enumerate() {
        let payloads: Vec<&[u8]> = planes.iter().map(|p| p[i].payload.as_slice()).collect();
        let start = match pkt.payload.len() {
            0 => 0,
            _ => start_of(&payloads),
        };
        text += &format!(
            "{} {} {} {start} {} {}\n",
            pkt.sbn,
            pkt.esi,
            pkt.source_block_length,
            pkt.payload.len(),
            pkt.close_object as u8
        );
    }
    text + "end"
}

fn main() {
    std::panic::set_hook(Box::new(|info| eprintln!("{info}")));
    let mut out = std::io::BufWriter::new(std::io::stdout().lock());
    let mut desks: Vec<Desk> = Vec::new();
    for text in std::io::stdin().lock().lines() {
        let text = text.unwrap();
        let mut words = text.split_whitespace();
        let Some(command) = words.next() else {
            continue;
        };
        if command.starts_with('#') {
            continue;
        }
        let words = || Words(words.clone());
        let answer = std::panic::catch_unwind(std::panic::AssertUnwindSafe(|| match command {
            "setup" => {
                let contents = (0..PLANES).map(Content::Plane).chain([Content::Real]);
                let made = contents
                    .map(|c| Desk::new(c, &mut words()))
                    .collect::<Option<_>>();
                desks = made.unwrap_or_default();
                (!desks.is_empty()).then(|| "ok".to_string())
            }
            "partition" | "blocklength" | "rawlength" | "drain" => {
                without_sender(command, &mut words())
            }
            _ if desks.is_empty() => None,
            _ => {
                let answers: Option<Vec<Answer>> = desks
                    .iter_mut()
                    .map(|desk| desk.answer(command, &mut words()))
                    .collect();
                answers.map(|answers| agree(&answers))
            }
        }));
        let answer = match answer {
            Ok(answer) => answer.unwrap_or("error".to_string()),
            Err(_) => {
                // Forgotten, not dropped: a lock of theirs may be poisoned.
                std::mem::forget(std::mem::take(&mut desks));
                "panic".to_string()
            }
        };
        writeln!(out, "{answer}").unwrap();
    }
}
