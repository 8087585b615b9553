//! The route on other processors: host/host.c has the library in it, runs under the kit's emulator and is called
//! through two pipes. The form of a request and its reply is told there.

use std::io::{Read, Write};
use std::process::{Child, ChildStdin, ChildStdout, Command, Stdio};
use std::sync::{Mutex, OnceLock};

use crate::ffi::TwoLegs;
use crate::room::{Room, Words};

const FORMULA_READ: u64 = 1;
const BOOK_READ: u64 = 2;
const BOOK_WRITE: u64 = 3;
const FIND: u64 = 4;
const PLAN_CHECK: u64 = 5;
const SHEET: u64 = 6;
const RULES: u64 = 7;
const ASK: u64 = 8;
const REPLAY: u64 = 9;
const FIND_PLAIN: u64 = 10;
const BOOK_SALVAGE: u64 = 11;
const FIND_TWO: u64 = 12;

pub fn formula_read(n: u64, text: &mut Room, table: &mut Room) -> u64 {
    call(FORMULA_READ, &[n], &mut [text, table])
}

pub fn book_read(book: &mut Room, rights: &mut Room) -> u64 {
    call(BOOK_READ, &[], &mut [book, rights])
}

pub fn book_write(n: u64, m: u64, rights: &mut Room, book: &mut Room) -> u64 {
    call(BOOK_WRITE, &[n, m], &mut [rights, book])
}

pub fn book_salvage(book: &mut Room, room: &mut Room) -> u64 {
    call(BOOK_SALVAGE, &[], &mut [book, room])
}

pub fn find(
    book: &mut Room,
    masks: [u8; 4],
    make: &mut Room,
    learn: &mut Room,
    ranks: &mut Room,
    plan: &mut Room,
) -> u64 {
    call(FIND, &masks.map(u64::from), &mut [book, make, learn, ranks, plan])
}

pub fn find_two(legs: &mut TwoLegs, ranks: &mut Room, ranks2: &mut Room, plan: &mut Room) -> u64 {
    let TwoLegs { book, masks: [team, known, values, held], make, learn, team2, make2, learn2 } = legs;
    let numbers = [*team, *known, *values, *held, *team2].map(u64::from);
    call(FIND_TWO, &numbers, &mut [book, make, learn, make2, learn2, ranks, ranks2, plan])
}

pub fn find_plain(book: &mut Room, masks: [u8; 4], make: &mut Room, learn: &mut Room) -> u64 {
    call(FIND_PLAIN, &masks.map(u64::from), &mut [book, make, learn])
}

pub fn plan_check(book: &mut Room, masks: [u8; 4], make: &mut Room, learn: &mut Room, plan: &mut Room) -> u64 {
    call(PLAN_CHECK, &masks.map(u64::from), &mut [book, make, learn, plan])
}

pub fn sheet(sheet: &mut Room, out: &mut Room) -> u64 {
    call(SHEET, &[], &mut [sheet, out])
}

pub fn rules(rules: &mut Room, book: &mut Room) -> u64 {
    call(RULES, &[], &mut [rules, book])
}

pub fn ask(book: &mut Room, question: &mut Room, ranks: &mut Room, out: &mut Room) -> u64 {
    call(ASK, &[], &mut [book, question, ranks, out])
}

/// The words stand first, where all that is before them is words too, so that their address is right for words.
pub fn replay(book: &mut Room, start: u64, shift: &mut Room, reached: &mut Words) -> u64 {
    let mut words = reached.bytes();
    let word = call(REPLAY, &[start], &mut [&mut words, book, shift]);
    reached.take(&words);
    word
}

struct Host {
    requests: ChildStdin,
    replies: ChildStdout,
    program: Child,
}

fn call(function: u64, numbers: &[u64], rooms: &mut [&mut Room]) -> u64 {
    static HOST: OnceLock<Mutex<Host>> = OnceLock::new();
    let host = HOST.get_or_init(|| Mutex::new(Host::start()));
    host.lock().unwrap().call(function, numbers, rooms)
}

impl Host {
    fn start() -> Host {
        let mut program = Command::new(env!("PJ_START"))
            .arg(env!("PJ_HOST"))
            .stdin(Stdio::piped())
            .stdout(Stdio::piped())
            .spawn()
            .unwrap_or_else(|error| panic!("{} did not start: {error}", env!("PJ_START")));
        let requests = program.stdin.take().unwrap();
        let replies = program.stdout.take().unwrap();
        Host { requests, replies, program }
    }

    fn call(&mut self, function: u64, numbers: &[u64], rooms: &mut [&mut Room]) -> u64 {
        let mut words = vec![function, numbers.len() as u64, rooms.len() as u64];
        words.extend_from_slice(numbers);
        words.extend(rooms.iter_mut().map(|room| room.whole_mut().len() as u64));
        let all: usize = rooms.iter_mut().map(|room| room.whole_mut().len()).sum();

        let mut request = ((words.len() * 8 + all) as u64).to_le_bytes().to_vec();
        request.extend(words.iter().flat_map(|word| word.to_le_bytes()));
        for room in rooms.iter_mut() {
            request.extend_from_slice(room.whole_mut());
        }
        let mut reply = vec![0; 8 + all];
        let answered = self.requests.write_all(&request).and_then(|()| self.replies.read_exact(&mut reply));
        if let Err(error) = answered {
            panic!("the library's host gave no answer ({error}); it ended: {:?}", self.program.wait());
        }

        let mut rest = &reply[8..];
        for room in rooms.iter_mut() {
            let (own, others) = rest.split_at(room.whole_mut().len());
            room.whole_mut().copy_from_slice(own);
            rest = others;
        }
        u64::from_le_bytes(reply[..8].try_into().unwrap())
    }
}
