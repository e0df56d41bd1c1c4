//! A port, with those of its rules that the measured steps meet.

use super::ploam::{decode_up, Down, Serial, Up};
use std::collections::VecDeque;

#[derive(Clone, Copy, Debug, PartialEq, Eq)]
pub enum Phase {
    Ranging { attempts: u8, seen: bool },
    Operating { eqd: u32, dark: u8, garbled: u8 },
}

#[derive(Clone, Copy, Debug, PartialEq, Eq)]
pub struct Row {
    pub onu: u8,
    pub allocs: [Option<(u16, bool)>; 8],
    pub pending: Option<u16>,
    pub waiting: u8,
    pub phase: Phase,
}

#[derive(Clone, Copy, Debug)]
pub struct Record {
    pub serial: Serial,
    pub row: Row,
}

#[derive(Clone, Copy, Debug, PartialEq, Eq)]
pub enum Grant {
    Search,
    Range(u8),
    Poll(u8),
}

#[derive(Clone, Copy, Debug, PartialEq, Eq)]
pub enum AlarmKind {
    Los,
    Loam,
    Loa,
    Suf,
    Df,
    Dg,
}

#[derive(Clone, Copy, Debug, PartialEq, Eq)]
pub struct Alarm {
    pub kind: AlarmKind,
    pub serial: Serial,
}

#[derive(Clone, Copy, Debug, PartialEq, Eq)]
pub enum Refusal {
    Stray,
    Garbled,
    WrongWindow,
    NotAdmitted,
    NoId,
    NoLicence,
    Busy,
    AlreadySearching,
}

#[derive(Clone, Copy, Debug, PartialEq, Eq)]
pub enum Reply {
    Ticked,
    Refused(Refusal),
    Searching,
    Found(u8),
    Again(u8),
    Repeat(u8),
    Restarted(u8),
    DisabledSeen,
    Ranged { onu: u8, eqd: u32 },
    TooFar(u8),
    StillRanging(u8),
    Alive(u8),
    Acked(u16),
    Gasp(u8),
    Shown(Row),
}

#[derive(Clone, Copy, Debug, PartialEq, Eq)]
pub struct Answer {
    pub reply: Reply,
    pub sent: Option<Down>,
    pub grant: Option<Grant>,
    pub alarm: Option<Alarm>,
}

#[derive(Clone, Copy, Debug)]
pub enum Command {
    Search,
    /// Never asked here; an answer has room for a row because of it.
    #[allow(dead_code)]
    Show(Serial),
}

#[derive(Clone, Copy, Debug)]
pub enum Event {
    Frame,
    Burst { at: u32, bytes: [u8; 13] },
    Command(Command),
}

#[derive(Clone, Copy, PartialEq, Eq)]
pub enum Common {
    Standby,
    Acquisition(u8),
    Measuring,
}

#[derive(Clone, Copy)]
pub struct Window {
    pub grant: Grant,
    pub left: u8,
    pub seen: bool,
}

pub struct Admission {
    pub serial: Serial,
    pub onu: Option<u8>,
    pub disabled: bool,
}

#[derive(Default, Clone, Copy)]
pub struct Bits([u64; 4]);

impl Bits {
    pub fn insert(&mut self, onu: u8) {
        self.0[usize::from(onu) / 64] |= 1 << (onu % 64);
    }
    pub fn remove(&mut self, onu: u8) {
        self.0[usize::from(onu) / 64] &= !(1 << (onu % 64));
    }
    pub fn least_from(&self, from: usize) -> Option<u8> {
        let mut word = from / 64;
        let mut mask = u64::MAX << (from % 64);
        while word < 4 {
            let found = self.0[word] & mask;
            if found != 0 {
                return Some((word * 64 + found.trailing_zeros() as usize) as u8);
            }
            word += 1;
            mask = u64::MAX;
        }
        None
    }
}

pub struct Config {
    pub mask: u8,
    pub teqd: u32,
    pub overhead: [u8; 10],
    pub max_units: u8,
    pub cycles: u8,
    pub search_period: u32,
    pub quarantine: u16,
    pub admitted: Vec<Serial>,
}

pub struct Port {
    pub config: Config,
    pub units: Vec<Option<Record>>,
    pub admissions: Vec<Admission>,
    pub ranging: Bits,
    pub operating: Bits,
    pub rows: usize,
    pub clock: u64,
    pub free_from: [u64; 254],
    pub common: Common,
    pub wanted: bool,
    pub timer: u32,
    pub window: Option<Window>,
    pub owed: VecDeque<(Down, u8)>,
    pub polled: Option<u8>,
}

impl Port {
    pub fn begin(config: Config) -> Port {
        let mut admissions: Vec<Admission> =
            config.admitted.iter().map(|&serial| Admission { serial, onu: None, disabled: false }).collect();
        admissions.sort_by_key(|admission| admission.serial);
        Port {
            units: vec![None; 254],
            admissions,
            ranging: Bits::default(),
            operating: Bits::default(),
            rows: 0,
            clock: 0,
            free_from: [0; 254],
            common: Common::Standby,
            wanted: false,
            timer: 0,
            window: None,
            owed: VecDeque::with_capacity(64),
            polled: None,
            config,
        }
    }

    pub fn len_copies(&self) -> usize {
        match self.owed.front() {
            Some(&(_, left)) => usize::from(left) + 3 * (self.owed.len() - 1),
            None => 0,
        }
    }

    pub fn has_room(&self) -> bool {
        self.len_copies() + 3 <= 189
    }

    pub fn step(&mut self, purse: u32, event: Event) -> (Answer, u32) {
        match event {
            Event::Frame => self.frame(purse),
            Event::Burst { at, bytes } => self.burst(purse, at, &bytes),
            Event::Command(command) => (answer(self.command(command)), purse),
        }
    }

    pub fn command(&mut self, command: Command) -> Reply {
        match command {
            Command::Search => {
                if self.wanted || matches!(self.common, Common::Acquisition(_)) {
                    return Reply::Refused(Refusal::AlreadySearching);
                }
                self.wanted = true;
                Reply::Searching
            }
            Command::Show(serial) => match self.admissions.binary_search_by_key(&serial, |a| a.serial) {
                Ok(place) => match self.admissions[place].onu {
                    Some(onu) => Reply::Shown(self.units[usize::from(onu)].unwrap().row),
                    None => Reply::Refused(Refusal::Stray),
                },
                Err(_) => Reply::Refused(Refusal::NotAdmitted),
            },
        }
    }

    pub fn frame(&mut self, purse: u32) -> (Answer, u32) {
        let quiet = self.owed.is_empty();
        self.clock += 1;
        if self.common == Common::Standby && self.config.search_period > 0 {
            self.timer += 1;
            if self.timer == self.config.search_period {
                self.timer = 0;
                self.wanted = true;
            }
        }
        let mut given = Answer { reply: Reply::Ticked, sent: self.send_one(), grant: None, alarm: None };
        let mut left = purse;
        match &mut self.window {
            Some(window) => {
                window.left -= 1;
                if window.left == 0 {
                    let window = *window;
                    self.window = None;
                    given.alarm = self.close_window(window, &mut left);
                }
            }
            None if quiet => given.grant = self.decide(),
            None => {}
        }
        (given, left)
    }

    pub fn send_one(&mut self) -> Option<Down> {
        let (message, left) = self.owed.front_mut()?;
        let message = *message;
        *left -= 1;
        if *left == 0 {
            self.owed.pop_front();
        }
        Some(message)
    }

    pub fn close_window(&mut self, window: Window, purse: &mut u32) -> Option<Alarm> {
        match window.grant {
            Grant::Search => None,
            Grant::Range(onu) => {
                let unit = self.units[usize::from(onu)].as_mut()?;
                if let Phase::Ranging { attempts, seen } = &mut unit.row.phase {
                    *seen |= window.seen;
                    if *attempts == 0 {
                        *attempts = 1;
                        return None;
                    }
                    let heard = *seen;
                    let serial = unit.serial;
                    self.remove(onu);
                    *purse += 1;
                    self.owe(Down::Deactivate { onu });
                    return heard.then_some(Alarm { kind: AlarmKind::Suf, serial });
                }
                None
            }
            Grant::Poll(onu) => {
                let unit = self.units[usize::from(onu)].as_mut()?;
                let row = &mut unit.row;
                let Phase::Operating { dark, garbled, .. } = &mut row.phase else {
                    return None;
                };
                if window.seen {
                    *dark = 0;
                    *garbled += 1;
                } else {
                    *dark += 1;
                }
                if row.pending.is_some() {
                    row.waiting += 1;
                }
                let kind = if *dark == 4 {
                    AlarmKind::Los
                } else if *garbled == 3 {
                    AlarmKind::Loam
                } else if row.waiting == 3 {
                    AlarmKind::Loa
                } else {
                    return None;
                };
                let serial = unit.serial;
                self.remove(onu);
                *purse += 1;
                self.owe(Down::Deactivate { onu });
                Some(Alarm { kind, serial })
            }
        }
    }

    pub fn remove(&mut self, onu: u8) {
        if let Some(unit) = self.units[usize::from(onu)].take() {
            let place = self.admissions.binary_search_by_key(&unit.serial, |a| a.serial).unwrap();
            self.admissions[place].onu = None;
            self.ranging.remove(onu);
            self.operating.remove(onu);
            self.rows -= 1;
            self.free_from[usize::from(onu)] = self.clock + u64::from(self.config.quarantine);
        }
    }

    pub fn owe(&mut self, message: Down) {
        self.owed.push_back((message, 3));
    }

    pub fn open(&mut self, grant: Grant) -> Option<Grant> {
        self.window = Some(Window { grant, left: 3, seen: false });
        Some(grant)
    }

    pub fn decide(&mut self) -> Option<Grant> {
        match self.common {
            Common::Standby if self.wanted => {
                self.wanted = false;
                self.common = Common::Acquisition(self.config.cycles);
                self.owe(Down::UpstreamOverhead { burst: self.config.overhead });
                None
            }
            Common::Acquisition(left) if left > 0 => {
                self.common = Common::Acquisition(left - 1);
                self.open(Grant::Search)
            }
            _ => match self.ranging.least_from(0) {
                Some(onu) => {
                    self.common = Common::Measuring;
                    self.open(Grant::Range(onu))
                }
                None if self.common == Common::Standby => self.poll(),
                None => {
                    self.common = Common::Standby;
                    None
                }
            },
        }
    }

    pub fn poll(&mut self) -> Option<Grant> {
        let above = self.polled.and_then(|onu| self.operating.least_from(usize::from(onu) + 1));
        let onu = above.or_else(|| self.operating.least_from(0))?;
        self.polled = Some(onu);
        self.open(Grant::Poll(onu))
    }

    pub fn refuse(&mut self, refusal: Refusal) -> Answer {
        if let Some(window) = &mut self.window {
            window.seen = true;
        }
        answer(Reply::Refused(refusal))
    }

    pub fn burst(&mut self, purse: u32, at: u32, bytes: &[u8; 13]) -> (Answer, u32) {
        let Some(window) = self.window else {
            return (answer(Reply::Refused(Refusal::Stray)), purse);
        };
        let Some(message) = decode_up(bytes, self.config.mask) else {
            return (self.refuse(Refusal::Garbled), purse);
        };
        match window.grant {
            Grant::Search => self.search(purse, message),
            Grant::Range(onu) => (self.range(at, onu, message), purse),
            Grant::Poll(onu) => self.answered(purse, onu, message),
        }
    }

    pub fn search(&mut self, purse: u32, message: Up) -> (Answer, u32) {
        let Up::SerialNumber { onu: 255, serial, .. } = message else {
            return (self.refuse(Refusal::WrongWindow), purse);
        };
        let Ok(place) = self.admissions.binary_search_by_key(&serial, |a| a.serial) else {
            return (self.refuse(Refusal::NotAdmitted), purse);
        };
        if self.admissions[place].disabled {
            let alarm = Some(Alarm { kind: AlarmKind::Df, serial });
            return (Answer { alarm, ..answer(Reply::DisabledSeen) }, purse);
        }
        if let Some(onu) = self.admissions[place].onu {
            return self.heard_again(purse, onu, serial);
        }
        let Some(onu) = self.free_onu() else {
            return (self.refuse(Refusal::NoId), purse);
        };
        if purse == 0 {
            return (self.refuse(Refusal::NoLicence), purse);
        }
        if !self.has_room() {
            return (self.refuse(Refusal::Busy), purse);
        }
        let row = Row {
            onu,
            allocs: [None; 8],
            pending: None,
            waiting: 0,
            phase: Phase::Ranging { attempts: 0, seen: false },
        };
        self.units[usize::from(onu)] = Some(Record { serial, row });
        self.admissions[place].onu = Some(onu);
        self.ranging.insert(onu);
        self.rows += 1;
        self.owe(Down::AssignOnu { onu, serial });
        (answer(Reply::Found(onu)), purse - 1)
    }

    pub fn heard_again(&mut self, purse: u32, onu: u8, serial: Serial) -> (Answer, u32) {
        let unit = self.units[usize::from(onu)].as_mut().unwrap();
        if matches!(unit.row.phase, Phase::Operating { .. }) {
            if !self.has_room() {
                return (self.refuse(Refusal::Busy), purse);
            }
            self.remove(onu);
            self.owe(Down::Deactivate { onu });
            return (answer(Reply::Restarted(onu)), purse + 1);
        }
        let message = Down::AssignOnu { onu, serial };
        if self.owed.iter().any(|(owed, _)| *owed == message) {
            return (answer(Reply::Repeat(onu)), purse);
        }
        if !self.has_room() {
            return (self.refuse(Refusal::Busy), purse);
        }
        let unit = self.units[usize::from(onu)].as_mut().unwrap();
        unit.row.allocs = [None; 8];
        unit.row.pending = None;
        unit.row.waiting = 0;
        unit.row.phase = Phase::Ranging { attempts: 0, seen: false };
        self.owe(message);
        (answer(Reply::Again(onu)), purse)
    }

    pub fn free_onu(&self) -> Option<u8> {
        if self.rows >= usize::from(self.config.max_units) {
            return None;
        }
        for word in 0..4 {
            let mut free = !(self.ranging.0[word] | self.operating.0[word]);
            while free != 0 {
                let onu = word * 64 + free.trailing_zeros() as usize;
                if onu > 253 {
                    return None;
                }
                if self.free_from[onu] <= self.clock {
                    return Some(onu as u8);
                }
                free &= free - 1;
            }
        }
        None
    }

    pub fn range(&mut self, at: u32, onu: u8, message: Up) -> Answer {
        if message.octet1() != onu {
            return self.refuse(Refusal::WrongWindow);
        }
        let Some(unit) = self.units[usize::from(onu)] else {
            return self.refuse(Refusal::WrongWindow);
        };
        match message {
            Up::SerialNumber { serial, .. } if serial != unit.serial => self.refuse(Refusal::WrongWindow),
            Up::SerialNumber { .. } => match self.config.teqd.checked_sub(at) {
                None => {
                    self.window.as_mut().unwrap().seen = true;
                    answer(Reply::TooFar(onu))
                }
                Some(eqd) => {
                    if !self.has_room() {
                        return self.refuse(Refusal::Busy);
                    }
                    self.units[usize::from(onu)].as_mut().unwrap().row.phase =
                        Phase::Operating { eqd, dark: 0, garbled: 0 };
                    self.ranging.remove(onu);
                    self.operating.insert(onu);
                    self.window = None;
                    self.owe(Down::RangingTime { onu, eqd });
                    answer(Reply::Ranged { onu, eqd })
                }
            },
            Up::DyingGasp { .. } => {
                self.window.as_mut().unwrap().seen = true;
                let alarm = Some(Alarm { kind: AlarmKind::Dg, serial: unit.serial });
                Answer { alarm, ..answer(Reply::Gasp(onu)) }
            }
            _ => {
                self.window.as_mut().unwrap().seen = true;
                answer(Reply::StillRanging(onu))
            }
        }
    }

    pub fn answered(&mut self, purse: u32, onu: u8, message: Up) -> (Answer, u32) {
        if message.octet1() != onu {
            return (self.refuse(Refusal::WrongWindow), purse);
        }
        let Some(unit) = self.units[usize::from(onu)].as_mut() else {
            return (self.refuse(Refusal::WrongWindow), purse);
        };
        self.window = None;
        let serial = unit.serial;
        let row = &mut unit.row;
        if let Phase::Operating { dark, garbled, .. } = &mut row.phase {
            *dark = 0;
            *garbled = 0;
        }
        match (message, row.pending) {
            (Up::Acknowledge { id: 0x0a, .. }, Some(alloc)) => {
                row.pending = None;
                row.waiting = 0;
                (answer(Reply::Acked(alloc)), purse)
            }
            (Up::DyingGasp { .. }, _) => {
                let alarm = Some(Alarm { kind: AlarmKind::Dg, serial });
                (Answer { alarm, ..answer(Reply::Gasp(onu)) }, purse)
            }
            (_, pending) => {
                if pending.is_some() {
                    row.waiting += 1;
                    if row.waiting == 3 {
                        self.remove(onu);
                        self.owe(Down::Deactivate { onu });
                        let alarm = Some(Alarm { kind: AlarmKind::Loa, serial });
                        return (Answer { alarm, ..answer(Reply::Alive(onu)) }, purse + 1);
                    }
                }
                (answer(Reply::Alive(onu)), purse)
            }
        }
    }
}

pub fn answer(reply: Reply) -> Answer {
    Answer { reply, sent: None, grant: None, alarm: None }
}
