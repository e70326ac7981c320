//! A unit with its image, for the tests.
#![allow(dead_code)]

use drive_model::image::{self, Image};
use drive_model::turn::{Action, TurnRefusal};
use drive_model::unit::{Fed, Unit};

pub struct Rig {
    pub unit: Unit,
    pub image: Image,
}

impl Rig {
    /// Fresh unit 1, idle.
    pub fn new() -> Rig {
        let image = image::empty();
        Rig { unit: Unit::start(1, &image).unwrap(), image }
    }

    /// Fresh unit 1, idle, with stored programs.
    pub fn with(programs: &[(usize, &str)]) -> Rig {
        let mut rig = Rig::new();
        for (slot, text) in programs {
            image::store(&mut rig.image, *slot, text.as_bytes());
        }
        rig
    }

    /// A fresh unit that runs this line.
    pub fn running(line: &str) -> Rig {
        let mut rig = Rig::new();
        assert_eq!(rig.status(&format!("{line}R")), 0x40);
        rig
    }

    /// Feeds bytes once: what was consumed, and the answer.
    pub fn feed(&mut self, bytes: &[u8]) -> (usize, Vec<u8>) {
        let mut answer = [0xee; 262];
        let Fed { consumed, answered } = self.unit.feed(bytes, &mut self.image, &mut answer).unwrap();
        assert!(answer[answered..].iter().all(|&byte| byte == 0xee));
        (consumed, answer[..answered].to_vec())
    }

    /// A frame with an address and a body; its answer.
    pub fn frame(&mut self, address: char, body: &str) -> Vec<u8> {
        let bytes = format!("/{address}{body}\r").into_bytes();
        let (consumed, answer) = self.feed(&bytes);
        assert_eq!(consumed, bytes.len());
        answer
    }

    /// Status and data of the answer to a body for unit 1.
    pub fn say(&mut self, body: &str) -> (u8, String) {
        let answer = self.frame('1', body);
        let packet = drive_model::packet::read(&answer).unwrap();
        (packet.status, String::from_utf8(packet.data.to_vec()).unwrap())
    }

    /// Status of an answer without data.
    pub fn status(&mut self, body: &str) -> u8 {
        let (status, data) = self.say(body);
        assert_eq!(data, "");
        status
    }

    /// Status of an answer to a refused body, and the place that it tells.
    pub fn fault(&mut self, body: &str) -> (u8, u32) {
        let (status, data) = self.say(body);
        (status, data.parse().unwrap())
    }

    pub fn turn(&mut self, sample: u8, elapsed: u32, steps: u32) -> Action {
        self.unit.turn(&self.image, sample, elapsed, steps).unwrap()
    }

    pub fn refused(&mut self, sample: u8, elapsed: u32, steps: u32) -> TurnRefusal {
        self.unit.turn(&self.image, sample, elapsed, steps).unwrap_err()
    }

    /// A turn with all inputs high and a report; its action.
    pub fn step(&mut self, steps: u32) -> Action {
        self.turn(15, 1, steps)
    }

    /// Turns that report all that was asked for, until the run ends: how many.
    pub fn finish(&mut self, sample: u8) -> usize {
        for turns in 0..1000 {
            if !self.unit.is_running() {
                return turns;
            }
            let steps = self.unit.greatest_report();
            self.turn(sample, 1, steps);
        }
        panic!("the run does not end");
    }

    pub fn position(&self) -> u32 {
        assert!(self.unit.position().known);
        self.unit.position().number
    }

    /// The position's last number, unknown as it is.
    pub fn lost(&self) -> u32 {
        assert!(!self.unit.position().known);
        self.unit.position().number
    }
}
