//! A port with simulated units on a fibre: each frame of the port, the copy that it sends and the grant that it issues to the
//! units, their answers to the port after their round trips, and the frame of each unit.

use super::chassis::Entry;
use super::measured::{number_of, Measured};
use super::ploam::{encode_up, Down, Serial, Up};
use super::port::{Command, Event, Grant, Port};
use super::{open, serial_of};
use std::cmp::Reverse;
use std::collections::BinaryHeap;
use std::time::Instant;

const FRAME_BIT_TIMES: u32 = 155_520;
const ACTIVATION_FRAMES: u64 = 80_000;

#[derive(Clone, Copy, PartialEq, Eq)]
enum Stage {
    Standby,
    SerialNumber { since: u64 },
    Ranging { onu: u8, since: u64 },
    Operation { onu: u8, eqd: u32 },
}

/// A simulated unit; `since` is the frame from which its timer runs.
struct Unit {
    serial: Serial,
    stage: Stage,
    delay: u32,
}

impl Unit {
    fn onu(&self) -> Option<u8> {
        match self.stage {
            Stage::Ranging { onu, .. } | Stage::Operation { onu, .. } => Some(onu),
            _ => None,
        }
    }

    fn hear(&mut self, message: &Down, frame: u64) {
        self.stage = match (self.stage, *message) {
            (Stage::Standby, Down::UpstreamOverhead { .. }) => Stage::SerialNumber { since: frame },
            (Stage::SerialNumber { since }, Down::AssignOnu { onu, serial }) if serial == self.serial => {
                Stage::Ranging { onu, since }
            }
            (Stage::Ranging { onu, .. } | Stage::Operation { onu, .. }, Down::RangingTime { onu: told, eqd })
                if told == onu =>
            {
                Stage::Operation { onu, eqd }
            }
            (Stage::Ranging { onu, .. } | Stage::Operation { onu, .. }, Down::Deactivate { onu: told })
                if told == onu =>
            {
                Stage::Standby
            }
            (stage, _) => stage,
        };
    }

    fn answer(&self, grant: Grant) -> Option<[u8; 13]> {
        let serial = self.serial;
        let message = match (self.stage, grant) {
            (Stage::SerialNumber { .. }, Grant::Search) => Up::SerialNumber { onu: 255, serial, random: 0, flags: 0 },
            (Stage::Ranging { onu, .. }, Grant::Range(asked)) if asked == onu => {
                Up::SerialNumber { onu, serial, random: 0, flags: 0 }
            }
            (Stage::Operation { onu, .. }, Grant::Range(asked) | Grant::Poll(asked)) if asked == onu => {
                Up::NoMessage { onu }
            }
            _ => return None,
        };
        Some(encode_up(&message, 0))
    }
}

#[derive(Clone, Copy)]
struct SentBurst {
    at: u32,
    bytes: [u8; 13],
}

/// The port, the units, and all that was sent.
struct World {
    port: Port,
    free: u32,
    units: Vec<Unit>,
    by_onu: Vec<Vec<u16>>,
    timers: BinaryHeap<Reverse<(u64, u16)>>,
    frames: u64,
    copies: Vec<Down>,
    grants: Vec<Grant>,
    bursts: Vec<SentBurst>,
    flights: Vec<(u64, usize)>,
}

impl World {
    fn begin(count: u16) -> World {
        let units = (0..count).map(|place| Unit {
            serial: serial_of(place),
            stage: Stage::Standby,
            delay: u32::from(place) * 151,
        });
        World {
            port: open((0..count.min(512)).map(serial_of).collect()),
            free: 254,
            units: units.collect(),
            by_onu: vec![Vec::new(); 256],
            timers: BinaryHeap::new(),
            frames: 0,
            copies: Vec::new(),
            grants: Vec::new(),
            bursts: Vec::new(),
            flights: Vec::new(),
        }
    }

    /// Gives the port an event, and keeps what it sends and grants.
    fn take(&mut self, event: Event) -> Entry {
        let purse_in = if matches!(event, Event::Burst { .. }) { self.free.min(1) } else { 0 };
        self.free -= purse_in;
        let (answer, purse_out) = self.port.step(purse_in, event);
        self.free += purse_out;
        self.copies.extend(answer.sent);
        self.grants.extend(answer.grant);
        Entry { purse_in, event, answer, purse_out }
    }

    fn run(&mut self, frames: u32) -> Vec<Entry> {
        let mut entries = Vec::new();
        for _ in 0..frames {
            self.frame(&mut entries);
        }
        entries
    }

    fn frame(&mut self, entries: &mut Vec<Entry>) {
        let entry = self.take(Event::Frame);
        entries.push(entry);
        if let Some(message) = entry.answer.sent {
            self.deliver(&message);
        }
        match entry.answer.grant {
            Some(Grant::Search) => (0..self.units.len()).for_each(|place| self.give(place, Grant::Search)),
            Some(grant @ (Grant::Range(onu) | Grant::Poll(onu))) => {
                for at in 0..self.by_onu[usize::from(onu)].len() {
                    self.give(usize::from(self.by_onu[usize::from(onu)][at]), grant);
                }
            }
            None => {}
        }
        self.land(entries);
        self.frames += 1;
        while let Some(&Reverse((due, place))) = self.timers.peek() {
            if due > self.frames {
                break;
            }
            self.timers.pop();
            self.end_state(usize::from(place), due);
        }
    }

    /// Gives the port the bursts that come in this frame.
    fn land(&mut self, entries: &mut Vec<Entry>) {
        let frame = self.frames;
        if self.flights.iter().all(|&(due, _)| due != frame) {
            return;
        }
        for at in 0..self.flights.len() {
            let (due, number) = self.flights[at];
            if due == frame {
                let SentBurst { at, bytes } = self.bursts[number];
                entries.push(self.take(Event::Burst { at, bytes }));
            }
        }
        self.flights.retain(|&(due, _)| due != frame);
    }

    fn deliver(&mut self, message: &Down) {
        match *message {
            Down::RangingTime { onu, .. } | Down::Deactivate { onu } => {
                for place in self.by_onu[usize::from(onu)].clone() {
                    self.hear(usize::from(place), message);
                }
            }
            _ => (0..self.units.len()).for_each(|place| self.hear(place, message)),
        }
    }

    fn hear(&mut self, place: usize, message: &Down) {
        let before = self.units[place].onu();
        let stage = self.units[place].stage;
        self.units[place].hear(message, self.frames);
        let after = self.units[place].onu();
        if before != after {
            if let Some(onu) = before {
                self.by_onu[usize::from(onu)].retain(|&other| usize::from(other) != place);
            }
            if let Some(onu) = after {
                self.by_onu[usize::from(onu)].push(place as u16);
            }
        }
        if let (Stage::Standby, Stage::SerialNumber { since }) = (stage, self.units[place].stage) {
            self.timers.push(Reverse((since + ACTIVATION_FRAMES, place as u16)));
        }
    }

    /// Ends O3 or O4 of a unit whose timer is due.
    fn end_state(&mut self, place: usize, due: u64) {
        match self.units[place].stage {
            Stage::SerialNumber { since } | Stage::Ranging { since, .. } if since + ACTIVATION_FRAMES == due => {
                if let Some(onu) = self.units[place].onu() {
                    self.by_onu[usize::from(onu)].retain(|&other| usize::from(other) != place);
                }
                self.units[place].stage = Stage::Standby;
            }
            _ => {}
        }
    }

    fn give(&mut self, place: usize, grant: Grant) {
        if let Some(bytes) = self.units[place].answer(grant) {
            let at = self.units[place].delay;
            self.flights.push((self.frames + u64::from(at / FRAME_BIT_TIMES), self.bursts.len()));
            self.bursts.push(SentBurst { at, bytes });
        }
    }
}

pub fn measure_worlds(rounds: u32) {
    for count in [64, 1024] {
        let mut measured = Measured::default();
        for _ in 0..rounds {
            let mut world = World::begin(count);
            world.take(Event::Command(Command::Search));
            world.run(2000);
            for _ in 0..16 {
                let begin = Instant::now();
                let entries = world.run(256);
                measured.took += begin.elapsed();
                measured.calls += 256;
                measured.sum += entries.iter().map(|entry| number_of(&entry.answer)).sum::<u64>();
            }
        }
        measured.tell("world frames", usize::from(count));
    }
}
