//! Single operations of the libraries, run by the program `operations`: many commands
//! in one run, each with the numbers expected of it (`crates/operations/src/main.rt`
//! has their form).

use crate::oracle::exchange::Limits;
use crate::oracle::plan::{record_part, Cleared};
use crate::oracle::set;
use crate::pools::PoolValue;
use crate::program::{of_project, Folder};
use crate::refusal::Refusal;
use std::fs::{self, File};
use std::os::fd::OwnedFd;
use std::os::unix::net::UnixDatagram;
use std::process::Command;
use std::time::Duration;

/// The bytes behind a command for record k, of which the first are the plan.
pub const MOST_PLAN: usize = 256;
/// The plan buffer that clearing is lent, with zeros in it.
const PLAN_BUFFER: usize = 224;

#[derive(Default)]
pub struct Commands {
    bytes: Vec<u8>,
    expected: Vec<(String, Vec<u64>)>,
}

impl Commands {
    fn push(&mut self, letter: u8, fields: [u8; 3], k: u64, behind: &[u8]) {
        self.bytes.push(letter);
        self.bytes.extend(fields);
        self.bytes.extend([0; 4]);
        self.bytes.extend(k.to_le_bytes());
        self.bytes.extend(behind);
    }

    fn expect(&mut self, case: String, numbers: Vec<u64>) {
        self.expected.push((case, numbers));
    }

    pub fn set(&mut self, set: u16, place: u8) {
        let [low, high] = set.to_le_bytes();
        self.push(b'S', [place, low, high], 0, &[]);
        let numbers = vec![
            set::lowest(set) as u64,
            set::size(set) as u64,
            set::with(set, place).into(),
            set::without(set, place).into(),
            set::has(set, place).into(),
        ];
        self.expect(format!("set {set:#b}, place {place}"), numbers);
    }

    pub fn limits(&mut self, limits: Limits) {
        let Limits { lc, lp } = limits;
        self.push(b'L', [lc, lp, 0], 0, &[]);
        let both = vec![0, lc.into(), lp.into()];
        let numbers = limits.test().map(|()| both).unwrap_or_else(numbers_of);
        self.expect(format!("{limits:?}"), numbers);
    }

    pub fn record(&mut self, plan: &[u8], k: u64) {
        let [low, high] = (plan.len() as u16).to_le_bytes();
        let mut behind = plan.to_vec();
        behind.resize(MOST_PLAN, 170);
        self.push(b'R', [0, low, high], k, &behind);
        let part = record_part(plan, k);
        let bytes = part.iter().map(|&byte| byte.into());
        let numbers = [part.len() as u64].into_iter().chain(bytes).collect();
        self.expect(format!("record {k} of {plan:?}"), numbers);
    }

    pub fn clear(
        &mut self,
        value: &PoolValue,
        limits: Limits,
        expected: &Result<Cleared, Refusal>,
    ) {
        let mut behind = vec![value.places, value.houses];
        for number in value.gives.iter().chain(&value.weeks) {
            behind.extend(number.to_le_bytes());
        }
        self.push(b'V', [limits.lc, limits.lp, 0], 0, &behind);
        let numbers = match expected {
            Ok(cleared) => numbers_of_cleared(cleared),
            Err(refusal) => numbers_of(*refusal),
        };
        self.expect(format!("{value:?} at {limits:?}"), numbers);
    }

    /// Runs all commands and compares answer by answer.
    pub fn run(&self) {
        let printed = self.printed();
        let mut numbers = printed.lines().map(|line| line.parse::<u64>().unwrap());
        for (case, expected) in &self.expected {
            let found: Vec<u64> = numbers.by_ref().take(expected.len()).collect();
            assert_eq!(&found, expected, "{case}");
        }
        assert_eq!(numbers.next(), None, "more than was asked for");
    }

    fn printed(&self) -> String {
        let folder = Folder::new();
        let output = self.program(&folder).output();
        let output = output.expect("the program can be run");
        assert!(output.status.success(), "{}", output.status);
        String::from_utf8(output.stdout).unwrap()
    }

    /// Runs all commands and expects each number to be written by itself: a datagram is one write.
    pub fn run_write_by_write(&self) {
        let folder = Folder::new();
        let (here, there) = UnixDatagram::pair().unwrap();
        here.set_read_timeout(Some(Duration::from_secs(10)))
            .unwrap();
        let mut program = self.program(&folder);
        let mut running = program.stdout(OwnedFd::from(there)).spawn().unwrap();
        let mut bytes = [0; 64];
        for number in self.expected.iter().flat_map(|(_, numbers)| numbers) {
            let length = here.recv(&mut bytes).expect("a number more");
            assert_eq!(bytes[..length], *format!("{number}\n").as_bytes());
        }
        assert!(running.wait().unwrap().success());
    }

    /// Reads the commands from a file, so that neither side waits for the other.
    fn program(&self, folder: &Folder) -> Command {
        let commands = folder.file("commands");
        fs::write(&commands, &self.bytes).unwrap();
        let mut program = Command::new(of_project("target/bin/operations"));
        program.stdin(File::open(commands).unwrap());
        program
    }
}

fn numbers_of(refusal: Refusal) -> Vec<u64> {
    vec![refusal.number, refusal.at]
}

fn numbers_of_cleared(cleared: &Cleared) -> Vec<u64> {
    let mut numbers = vec![0, cleared.served as u64, cleared.records as u64];
    numbers.extend(cleared.plan.iter().map(|&byte| u64::from(byte)));
    numbers.resize(3 + PLAN_BUFFER, 0);
    numbers
}
