//! What is told of each part: how many calls it made, a sum over their answers, and how long they took.

use super::port::{Answer, Grant, Reply};
use std::time::Duration;

#[derive(Clone, Copy, Default)]
pub struct Measured {
    pub calls: u64,
    pub sum: u64,
    pub took: Duration,
}

impl Measured {
    pub fn count(&mut self, answer: u64) {
        self.calls += 1;
        self.sum = self.sum.wrapping_add(answer);
    }

    pub fn tell(&self, part: &str, left: usize) {
        println!("{part}, {left} left: {} calls, {}", self.calls, self.sum);
        let each = self.took.as_nanos() as f64 / self.calls as f64;
        eprintln!(
            "{part}, {left} left: {} calls in {} microseconds, {each:.1} ns each",
            self.calls,
            self.took.as_micros()
        );
    }
}

/// n + 1 for an ONU-ID n in the answer, 0 for none.
pub fn number_of(answer: &Answer) -> u64 {
    let onu = match (answer.reply, answer.grant) {
        (Reply::Found(onu) | Reply::Ranged { onu, .. } | Reply::Alive(onu), _) => Some(onu),
        (_, Some(Grant::Range(onu) | Grant::Poll(onu))) => Some(onu),
        _ => None,
    };
    onu.map_or(0, |onu| u64::from(onu) + 1)
}
