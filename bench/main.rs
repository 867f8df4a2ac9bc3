//! Our sender and flute's on the same objects: are the packets the same, what does each cost?
//! docs/PERFORMANCE.md says what is measured.

mod case;
mod ours;
#[path = "../host/saltdoodle.rs"]
mod saltdoodle;
mod theirs;

use case::Case;
use ours::Ours;
use saltdoodle::SdSent;
use std::hint::black_box;
use std::process::Command;
use theirs::Theirs;

/// flute; ours; ours with one copy of each payload; ours with flute's packet in a send buffer.
const SIDES: usize = 4;
/// Packets that are counted under callgrind, where an object has that many.
const COUNTED: u64 = 16_384;
const BUFFER: usize = 70_000;

extern "C" {
    fn clock_gettime(clock: i32, at: &mut [i64; 2]) -> i32;
    fn mallopt(what: i32, value: i32) -> i32;
}

/// Processor time of this thread in ns: what runs beside it on the machine is not in it.
fn processor_time() -> u64 {
    const THREAD: i32 = 3;
    let mut at = [0; 2];
    assert_eq!(unsafe { clock_gettime(THREAD, &mut at) }, 0);
    at[0] as u64 * 1_000_000_000 + at[1] as u64
}

/// Memory that is freed stays with the program, so that no unmapping is timed.
fn keep_memory() {
    const TRIM_THRESHOLD: i32 = -1;
    const MMAP_MAX: i32 = -4;
    unsafe {
        assert_eq!(mallopt(TRIM_THRESHOLD, i32::MAX), 1);
        assert_eq!(mallopt(MMAP_MAX, 0), 1);
    }
}

/// Asks the sessions in turn for `packets` packets, and for the time that takes. Each run must give one.
fn drive(sessions: usize, packets: u64, mut run: impl FnMut(usize) -> bool) -> u64 {
    let begin = processor_time();
    let mut session = 0;
    for _ in 0..packets {
        assert!(run(session), "a run without a packet");
        session += 1;
        if session == sessions {
            session = 0;
        }
    }
    processor_time() - begin
}

/// The time that one side takes for `packets` packets; set-up, adds and FDT are not in it.
/// Each side sends from its own fresh copy of the store, so that the caches know as much of it.
fn time(side: usize, case: &Case, store: &[u8], packets: u64) -> u64 {
    if side == 0 {
        let mut sender = Theirs::new(case, store);
        while sender.run_fdt().is_some() {}
        return drive(case.sessions, packets, |i| match sender.run(i) {
            Some(packet) => {
                black_box(&packet);
                true
            }
            None => false,
        });
    }
    let store = &store.to_vec()[..];
    let mut sender = Ours::new(case);
    while sender.run_fdt().sent {}
    let mut buffer = vec![0; BUFFER];
    match side {
        1 => drive(case.sessions, packets, |i| black_box(&sender.run(i)).sent),
        2 => drive(case.sessions, packets, |i| {
            let r = sender.run(i);
            ours::copy(&r.packet, store, &mut buffer);
            black_box(&buffer);
            r.sent
        }),
        _ => drive(case.sessions, packets, |i| {
            let r = sender.run(i);
            ours::write(&r.packet, store, &mut buffer);
            black_box(&buffer);
            r.sent
        }),
    }
}

/// One packet, or none, of each side: the same fields (with the payload's start), and for an object the same bytes.
fn compare(theirs: Option<Vec<u8>>, ours: &SdSent, store: &[u8]) -> bool {
    assert_eq!(ours.refused, 0);
    assert_eq!(theirs.is_some(), ours.sent, "one side has a packet");
    let Some(data) = theirs else { return false };
    assert_eq!(theirs::fields(&data), ours::fields(&ours.packet));
    if !ours.packet.is_fdt {
        let mut buffer = vec![0; BUFFER];
        let length = ours::write(&ours.packet, store, &mut buffer);
        assert!(data == buffer[..length], "the bytes differ");
    }
    true
}

/// All packets of a case, FDT and objects, until both sides have none.
fn check(case: &Case) -> u64 {
    let store = case.store();
    let mut theirs = Theirs::new(case, &store);
    let mut ours = Ours::new(case);
    let mut count = 0;
    for i in 0..case.sessions {
        compare(theirs.run(i), &ours.run(i), &store);
    }
    while compare(theirs.run_fdt(), &ours.run_fdt(), &store) {
        count += 1;
    }
    let mut quiet = 0;
    while quiet < case.sessions {
        quiet = 0;
        for i in 0..case.sessions {
            match compare(theirs.run(i), &ours.run(i), &store) {
                true => count += 1,
                false => quiet += 1,
            }
        }
    }
    count
}

/// Small objects, with a last symbol that is short, and objects that do not end together.
fn check_all() {
    let (mut cases, mut packets) = (0, 0);
    for e in [64, 1400] {
        for window in [1, 4, 16] {
            for (sessions, objects, length) in [
                (1, 1, 1 << 20),
                (1, 1, 262_152),
                (4, 32, 40_008),
                (3, 32, 8),
            ] {
                let case = Case {
                    e,
                    b: 64,
                    window,
                    sessions,
                    objects,
                    length,
                };
                packets += check(&case);
                cases += 1;
            }
        }
    }
    println!("Compared: {cases} cases, {packets} packets, all the same on both sides.\n");
}

/// What is measured: each W, the object's size, the number of objects.
fn groups() -> [(&'static str, Vec<(String, Case)>); 3] {
    let (mut windows, mut sizes, mut numbers) = (Vec::new(), Vec::new(), Vec::new());
    for e in [64, 1400] {
        let case = Case {
            e,
            b: 64,
            window: 4,
            sessions: 1,
            objects: 1,
            length: 1 << 26,
        };
        let many = Case {
            sessions: 4,
            objects: 32,
            length: 1 << 21,
            ..case
        };
        for window in [1, 4, 16] {
            windows.push((
                "1 of 2^26 bytes, 1 session".to_string(),
                Case { window, ..case },
            ));
        }
        for window in [1, 4, 16] {
            windows.push((
                "32 of 2^21 bytes, 4 sessions".to_string(),
                Case { window, ..many },
            ));
        }
        for power in [20, 23, 26] {
            let length = 1 << power;
            sizes.push((
                format!("1 of 2^{power} bytes, 1 session"),
                Case { length, ..case },
            ));
        }
        for objects in [1, 8, 32] {
            let name = format!("{objects} of 2^21 bytes, 1 session");
            numbers.push((
                name,
                Case {
                    sessions: 1,
                    objects,
                    ..many
                },
            ));
        }
    }
    [
        ("The window", windows),
        ("The object's size", sizes),
        ("The number of objects", numbers),
    ]
}

fn head(title: &str, last: &str) {
    println!("{title}:\n");
    print!("| E | W | Objects | flute | ours | one copy | packet |");
    println!(" flute / ours | flute / one copy | flute / packet |{last}");
    print!("|---|---|---|---|---|---|---|---|---|---|");
    println!("{}", if last.is_empty() { "" } else { "---|" });
}

/// A row: the cost of each side, and how often ours goes into flute's.
fn line(name: &str, case: &Case, cost: &[f64; SIDES], digits: usize, last: &str) {
    print!("| {} | {} | {name} |", case.e, case.window);
    for c in cost {
        print!(" {c:.digits$} |");
    }
    for c in &cost[1..] {
        print!(" {:.1} |", cost[0] / c);
    }
    println!("{last}");
}

/// The least time of the copies alone, in the order of the packets and without a sender.
fn copies_alone(case: &Case, store: &[u8], rounds: u64) -> u64 {
    let mut sender = Ours::new(case);
    while sender.run_fdt().sent {}
    let mut starts = Vec::new();
    drive(case.sessions, case.packets(), |i| {
        starts.push(sender.run(i).packet.symbol.payload.start as u32);
        true
    });
    let mut buffer = vec![0; BUFFER];
    let mut least = u64::MAX;
    for _ in 0..rounds {
        let store = store.to_vec();
        let begin = processor_time();
        for start in &starts {
            let rest = &store[*start as usize..];
            let payload = &rest[..rest.len().min(case.e as usize)];
            buffer[..payload.len()].copy_from_slice(payload);
            black_box(&buffer);
        }
        least = least.min(processor_time() - begin);
    }
    least
}

/// ns a packet over whole transfers: the least of the rounds, the sides in turn; and of the copies alone.
fn timed(case: &Case, repeats: u64) -> ([f64; SIDES], f64) {
    let packets = case.packets();
    let rounds = repeats * (131_072 / packets).clamp(1, 20);
    let store = case.store();
    let mut least = [u64::MAX; SIDES];
    for _ in 0..rounds {
        for (side, least) in least.iter_mut().enumerate() {
            *least = time(side, case, &store, packets).min(*least);
        }
    }
    let a_packet = |t: u64| t as f64 / packets as f64;
    (
        least.map(a_packet),
        a_packet(copies_alone(case, &store, rounds)),
    )
}

/// The tables of times; then the least of the ratios for each E, for the goal.
fn times(repeats: u64) {
    println!("### ns a packet\n");
    let mut ratios = Vec::new();
    for (title, rows) in groups() {
        head(title, " copies alone |");
        for (name, case) in rows {
            let (cost, copies) = timed(&case, repeats);
            line(&name, &case, &cost, 1, &format!(" {copies:.1} |"));
            ratios.push((case.e, [cost[1], cost[2], copies].map(|c| cost[0] / c)));
        }
        println!();
    }
    for (e, goal) in [(64, 3), (1400, 10)] {
        let of_e = ratios.iter().filter(|r| r.0 == e);
        let [bare, copied, limit] = of_e.fold([f64::MAX; 3], |least, r| {
            [0, 1, 2].map(|k| least[k].min(r.1[k]))
        });
        println!("E = {e}, the least of all rows: flute takes {bare:.1} times ours, {copied:.1} times ours with one copy, {limit:.1} times the copies alone. The goal is {goal}.\n");
    }
}

/// Instructions of the whole program on one side, under callgrind.
fn collected(side: usize, case: &Case, packets: u64) -> Option<u64> {
    let out = Command::new("valgrind")
        .args(["--tool=callgrind", "--callgrind-out-file=/dev/null"])
        .arg(std::env::current_exe().unwrap())
        .arg("one")
        .args([side.to_string(), packets.to_string()])
        .args(case.words())
        .output()
        .ok()?;
    let text = String::from_utf8_lossy(&out.stderr).into_owned();
    assert!(out.status.success(), "{text}");
    text.split("Collected : ")
        .nth(1)?
        .split_whitespace()
        .next()?
        .parse()
        .ok()
}

/// Instructions a packet: a run with packets less one without, by the number of packets.
fn counted(case: &Case) -> Option<[f64; SIDES]> {
    let packets = case.packets().min(COUNTED);
    let mut cost = [0.0; SIDES];
    // Without packets, our sides are the same.
    let none = [collected(0, case, 0)?, collected(1, case, 0)?];
    for (side, cost) in cost.iter_mut().enumerate() {
        let none = none[side.min(1)];
        *cost = (collected(side, case, packets)? - none) as f64 / packets as f64;
    }
    Some(cost)
}

fn counts() {
    println!("### Instructions a packet\n");
    for (title, rows) in groups() {
        head(title, "");
        for (name, case) in rows {
            match counted(&case) {
                Some(cost) => line(&name, &case, &cost, 0, ""),
                None => return println!("\nNot counted: valgrind is not there."),
            }
        }
        println!();
    }
}

/// The machine and the compiler.
fn machine() {
    let text = std::fs::read_to_string("/proc/cpuinfo").unwrap_or_default();
    let model = text
        .lines()
        .find(|l| l.starts_with("model name"))
        .and_then(|l| l.split(": ").nth(1));
    let cores = std::thread::available_parallelism().map_or(0, |n| n.get());
    println!(
        "Machine: {}, {}, {cores} cores. Compiler: {}.\n",
        std::env::consts::ARCH,
        model.unwrap_or("unknown"),
        option_env!("COMPILER").unwrap_or("rustc")
    );
}

fn main() {
    let words: Vec<String> = std::env::args().skip(1).collect();
    let number = |k: usize| words.get(k).map(|w| w.parse().unwrap());
    if words.first().is_none_or(|w| w != "one") {
        keep_memory();
    }
    match words.first().map(String::as_str) {
        Some("check") => check_all(),
        Some("times") => times(number(1).unwrap_or(5)),
        Some("counts") => counts(),
        Some("one") => {
            let case = Case::read(&words[3..]);
            let store = vec![0; case.objects * case.length];
            let packets = number(2).unwrap();
            let t = time(number(1).unwrap() as usize, &case, &store, packets);
            println!("{t} ns for {packets} packets");
        }
        Some(word) => panic!("no such word: {word}"),
        None => {
            println!("## Figures\n");
            machine();
            check_all();
            times(5);
            counts();
        }
    }
}
