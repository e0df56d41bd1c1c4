//! Ports with their journals: one after the other, and each behind a lock, with workers on threads.

use super::measured::Measured;
use super::open;
use super::port::{Answer, Event, Port};
use std::sync::Mutex;
use std::thread;
use std::time::Instant;

/// How many entries a journal keeps before it is cut.
const ENTRIES: usize = 4096;

/// How many frames each thread has served in a round.
const FRAMES: usize = 16_384;

/// What is kept of a step of a port.
#[derive(Clone, Copy)]
pub struct Entry {
    pub purse_in: u32,
    #[allow(dead_code)]
    pub event: Event,
    pub answer: Answer,
    pub purse_out: u32,
}

/// What the one who applied an event is told.
#[derive(Clone, Copy)]
struct Receipt {
    port: u8,
    number: u64,
    entry: Entry,
}

/// A port with its journal.
struct Desk {
    port: Port,
    first: u64,
    journal: Vec<Entry>,
}

impl Desk {
    fn open() -> Desk {
        Desk { port: open(Vec::new()), first: 0, journal: Vec::new() }
    }

    /// Makes a step and records it; gives its number and what is left of the licences.
    fn serve(&mut self, purse_in: u32, event: Event) -> (u64, Entry) {
        let (answer, purse_out) = self.port.step(purse_in, event);
        let entry = Entry { purse_in, event, answer, purse_out };
        let number = self.first + self.journal.len() as u64;
        self.journal.push(entry);
        (number, entry)
    }

    fn cut(&mut self) {
        self.first += self.journal.len() as u64;
        self.journal = Vec::new();
    }
}

/// Applies an event to a port of a chassis on one thread.
fn apply(desks: &mut [Desk], free: &mut u32, port: u8, event: Event) -> Receipt {
    let purse = if matches!(event, Event::Burst { .. }) { (*free).min(1) } else { 0 };
    *free -= purse;
    let (number, entry) = desks[usize::from(port)].serve(purse, event);
    *free += entry.purse_out;
    Receipt { port, number, entry }
}

pub fn measure_chassis(rounds: u32) {
    let mut desks = [Desk::open()];
    let mut free = 0;
    let mut measured = Measured::default();
    for _ in 0..rounds {
        let begin = Instant::now();
        for _ in 0..ENTRIES {
            measured.count(apply(&mut desks, &mut free, 0, Event::Frame).number);
        }
        measured.took += begin.elapsed();
        desks[0].cut();
    }
    measured.tell("chassis frames", desks.len());
}

/// A chassis whose ports stand behind a lock each, and its free licences behind another.
struct Chassis {
    desks: Vec<Mutex<Desk>>,
    free: Mutex<u32>,
}

impl Chassis {
    fn apply(&self, receipts: &mut Vec<Receipt>, port: u8, event: Event) -> u64 {
        let purse = if matches!(event, Event::Burst { .. }) {
            let mut free = self.free.lock().unwrap();
            let purse = (*free).min(1);
            *free -= purse;
            purse
        } else {
            0
        };
        let (number, entry) = self.desks[usize::from(port)].lock().unwrap().serve(purse, event);
        if entry.purse_out > 0 {
            *self.free.lock().unwrap() += entry.purse_out;
        }
        receipts.push(Receipt { port, number, entry });
        number
    }
}

pub fn measure_threads(rounds: u32) {
    for threads in [1, 2, 4] {
        let chassis = Chassis { desks: (0..threads).map(|_| Mutex::new(Desk::open())).collect(), free: Mutex::new(0) };
        let mut measured = Measured::default();
        for _ in 0..rounds {
            let begin = Instant::now();
            let receipts = serve_all(&chassis, threads, &mut measured);
            measured.took += begin.elapsed();
            // What the workers were told is what the journals have.
            for told in receipts {
                let desk = chassis.desks[usize::from(told[0].port)].lock().unwrap();
                assert!(told.iter().zip(&desk.journal).all(|(one, other)| one.entry.purse_in == other.purse_in));
            }
            chassis.desks.iter().for_each(|desk| desk.lock().unwrap().cut());
        }
        measured.tell("frames by threads", usize::from(threads));
    }
}

/// Has each thread serve its frames by a port of its own; gives what they were told.
fn serve_all(chassis: &Chassis, threads: u8, measured: &mut Measured) -> Vec<Vec<Receipt>> {
    thread::scope(|scope| {
        let serve = |port| {
            scope.spawn(move || {
                let mut receipts = Vec::new();
                let sum: u64 = (0..FRAMES).map(|_| chassis.apply(&mut receipts, port, Event::Frame)).sum();
                (receipts, sum)
            })
        };
        let handles: Vec<_> = (0..threads).map(serve).collect();
        let told = handles.into_iter().map(|handle| {
            let (receipts, sum) = handle.join().unwrap();
            measured.calls += FRAMES as u64;
            measured.sum = measured.sum.wrapping_add(sum);
            receipts
        });
        told.collect()
    })
}
