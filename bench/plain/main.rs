//! What `crates/olt_bench` measures, in plain Rust, to compare times with. It makes the same calls and prints the same sums; of
//! the rules of a port, a chassis and a unit it has those that these calls meet.
//!
//!     rustc --edition 2021 -C opt-level=3 -C codegen-units=1 -o plain main.rs && ./plain ROUNDS
//!
//! `ploam.rs` has messages, `port.rs` a port, `chassis.rs` ports with their journals behind locks, `world.rs` a port with its
//! simulated units on a fibre, `measured.rs` what is told of each part.

mod chassis;
mod measured;
mod ploam;
mod port;
mod world;

use measured::{number_of, Measured};
use ploam::{decode_up, encode_down, encode_up, Down, Serial, Up};
use port::{Command, Config, Event, Grant, Port};
use std::time::Instant;

/// The serial number of the unit at this place.
fn serial_of(place: u16) -> Serial {
    let [high, low] = place.to_be_bytes();
    [0x41, 0x42, 0x43, 0x44, 0, 0, high, low]
}

/// A port that admits these serial numbers.
fn open(admitted: Vec<Serial>) -> Port {
    Port::begin(Config {
        mask: 0,
        teqd: 311_040,
        overhead: [0; 10],
        max_units: 254,
        cycles: 5,
        search_period: 0,
        quarantine: 800,
        admitted,
    })
}

/// What a unit answers to each grant, encoded beforehand.
#[derive(Clone, Copy)]
struct Unit {
    serial: Serial,
    searched: [u8; 13],
    ranged: [u8; 13],
    polled: [u8; 13],
}

fn unit_with(onu: u8) -> Unit {
    let serial = serial_of(u16::from(onu));
    let number = |onu| encode_up(&Up::SerialNumber { onu, serial, random: 0, flags: 0 }, 0);
    Unit { serial, searched: number(255), ranged: number(onu), polled: encode_up(&Up::NoMessage { onu }, 0) }
}

#[derive(Clone, Copy, PartialEq, Eq)]
enum Part {
    IdleFrames,
    Acquisition,
    DarkFrames,
    Polls,
}

struct Licensed {
    port: Port,
    free: u32,
    granted: Option<Grant>,
    measured: Measured,
}

impl Licensed {
    fn step(&mut self, purse: u32, event: Event) {
        let (answer, rest) = self.port.step(purse, event);
        self.free += rest;
        self.granted = answer.grant;
        self.measured.count(number_of(&answer));
    }

    fn frames(&mut self, count: u32) {
        for _ in 0..count {
            self.step(0, Event::Frame);
        }
    }

    fn play(&mut self, part: Part, units: &[Unit]) {
        match part {
            Part::IdleFrames => self.frames(1000),
            Part::Acquisition => self.acquire(units),
            Part::DarkFrames => units.iter().for_each(|_| self.frames(12)),
            Part::Polls => self.answer_polls(1000, units),
        }
    }

    fn acquire(&mut self, units: &[Unit]) {
        self.step(0, Event::Command(Command::Search));
        let mut silent = units;
        for _ in 0..2000 {
            self.frames(1);
            match self.granted {
                Some(Grant::Search) => {
                    let (heard, rest) = silent.split_at(silent.len().min(63));
                    for unit in heard {
                        let purse = self.free.min(1);
                        self.free -= purse;
                        self.step(purse, Event::Burst { at: 100_000, bytes: unit.searched });
                    }
                    silent = rest;
                }
                Some(Grant::Range(_)) => self.answer(units),
                Some(Grant::Poll(_)) => return,
                None => {}
            }
        }
    }

    fn answer(&mut self, units: &[Unit]) {
        let (onu, polled) = match self.granted {
            Some(Grant::Range(onu)) => (onu, false),
            Some(Grant::Poll(onu)) => (onu, true),
            _ => return,
        };
        if let Some(unit) = units.get(usize::from(onu)) {
            let bytes = if polled { unit.polled } else { unit.ranged };
            self.step(0, Event::Burst { at: 100_000, bytes });
        }
    }

    fn answer_polls(&mut self, count: usize, units: &[Unit]) {
        for _ in 0..count {
            self.answer(units);
            self.frames(1);
        }
    }

    fn measure(&mut self, name: &str, part: Part, units: &[Unit], rounds: u32) {
        self.measured = Measured::default();
        for _ in 0..rounds {
            if part == Part::Acquisition {
                self.free += self.port.rows as u32;
                self.port = open(units.iter().map(|unit| unit.serial).collect());
            }
            let begin = Instant::now();
            self.play(part, units);
            self.measured.took += begin.elapsed();
            if part == Part::DarkFrames {
                let measured = self.measured;
                self.answer_polls(units.len(), units);
                self.measured = measured;
            }
        }
        self.measured.tell(name, self.port.rows);
    }
}

fn measure_codec(rounds: u32) {
    let units: Vec<Unit> = (0..250).map(unit_with).collect();
    let (mut encoded, mut decoded) = (Measured::default(), Measured::default());
    for _ in 0..rounds {
        let begin = Instant::now();
        for eqd in 0..1000 {
            let code = encode_down(&Down::RangingTime { onu: (eqd % 250) as u8, eqd }, 0);
            encoded.count(u64::from(code[12]));
        }
        encoded.took += begin.elapsed();
        let begin = Instant::now();
        for _ in 0..2 {
            for unit in &units {
                for code in [&unit.ranged, &unit.polled] {
                    decoded.count(decode_up(code, 0).map_or(0, |message| u64::from(message.octet1()) + 1));
                }
            }
        }
        decoded.took += begin.elapsed();
    }
    encoded.tell("encoded messages", 0);
    decoded.tell("decoded messages", 0);
}

fn main() {
    let rounds: u32 = std::env::args().nth(1).and_then(|word| word.parse().ok()).expect("ROUNDS");
    measure_codec(rounds);
    let mut licensed = Licensed { port: open(Vec::new()), free: 254, granted: None, measured: Measured::default() };
    licensed.measure("idle frames", Part::IdleFrames, &[], rounds);
    for count in [64, 254] {
        let units: Vec<Unit> = (0..count).map(unit_with).collect();
        licensed.measure("acquisition", Part::Acquisition, &units, rounds);
        licensed.measure("dark frames", Part::DarkFrames, &units, rounds);
        licensed.measure("answered polls", Part::Polls, &units, rounds);
    }
    chassis::measure_chassis(rounds);
    chassis::measure_threads(rounds);
    world::measure_worlds(rounds);
}
