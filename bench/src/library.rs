//! Calls by themselves: lines played on a register that is loaded, less the
//! same without them. So neither the start of a process nor an image is in it.

use crate::cases::{lists, List};
use crate::contender::Contender;
use crate::meter::{Measured, Meter};
use crate::shop::Shop;
use crate::table::{count, head, micros, row, times};
use bench::perform_trusted;
use reference::journal::run_from;
use reference::{load, print};
use std::hint::black_box;

/// Room for the answers to the longest input.
const ROOM: usize = 163_840;

#[link(name = "measured", kind = "static")]
extern "C" {
    fn measured_play(
        image: *const u8,
        image_len: usize,
        lines: *const u8,
        lines_len: usize,
        out: *mut u8,
        out_len: usize,
    ) -> usize;
}

/// Plays lines on the register of an image, and gives what is printed.
type Player = fn(&[u8], &[u8], &mut Vec<u8>);

fn proved(image: &[u8], lines: &[u8], out: &mut Vec<u8>) {
    out.resize(ROOM, 0);
    // Each pointer goes with the length of what it points to, and nobody else
    // has the output.
    let length = unsafe {
        let (to, room) = (out.as_mut_ptr(), out.len());
        measured_play(image.as_ptr(), image.len(), lines.as_ptr(), lines.len(), to, room)
    };
    black_box(length);
}

fn independent(image: &[u8], lines: &[u8], out: &mut Vec<u8>) {
    *out = run_from(load(black_box(image)).expect("an image"), black_box(lines));
}

/// Without the test of the rules before each line.
fn tested_once(image: &[u8], lines: &[u8], out: &mut Vec<u8>) {
    let mut register = load(black_box(image)).expect("an image");
    out.clear();
    for line in black_box(lines).split_inclusive(|&byte| byte == b'\n') {
        out.extend(print(&perform_trusted(&mut register, line)));
    }
}

const PLAYERS: [(&str, Player); 3] =
    [("proved", proved), ("reference", independent), ("tested once", tested_once)];

struct Playing {
    player: Player,
    image: Vec<u8>,
    lines: Vec<u8>,
    out: Vec<u8>,
}

impl Contender for Playing {
    fn call(&mut self) -> i64 {
        (self.player)(&self.image, &self.lines, &mut self.out);
        black_box(&self.out).len() as i64
    }
}

/// For each player, with the lines and without; then SQLite.
fn contenders(list: &List) -> Vec<Box<dyn Contender>> {
    let mut all: Vec<Box<dyn Contender>> = Vec::new();
    for lines in [&list.with, &list.without] {
        let mut expected = Vec::new();
        independent(&list.image, lines, &mut expected);
        for (name, player) in PLAYERS {
            let mut out = Vec::new();
            player(&list.image, lines, &mut out);
            assert!(out.starts_with(&expected), "{name}, {}: alike", list.case.name);
            let (image, lines) = (list.image.clone(), lines.clone());
            all.push(Box::new(Playing { player, image, lines, out }));
        }
    }
    if let Some(shop) = Shop::new(&list.case) {
        all.push(Box::new(shop));
    }
    all
}

/// What the lines add, for each of them.
struct Added {
    time: f64,
    count: Option<f64>,
}

fn added(measured: &Measured, at: usize, calls: f64) -> Added {
    let without = at + PLAYERS.len();
    let count = measured.count(at).zip(measured.count(without)).map(|(a, b)| (a - b) / calls);
    Added { time: (measured.time(at) - measured.time(without)) / calls, count }
}

pub fn print_all(meter: &mut Meter) {
    head(
        "Calls by themselves, on a loaded register",
        &[
            "register: call",
            "µs",
            "instructions",
            "time / reference",
            "instructions / reference",
            "time / tested once",
            "instructions / tested once",
            "SQLite µs",
            "SQLite time / time",
            "SQLite instructions / instructions",
        ],
    );
    for list in lists() {
        let all = contenders(&list);
        let with_shop = all.len() > 2 * PLAYERS.len();
        let measured = meter.measure(all);
        print_list(&list, &measured, with_shop);
    }
}

fn print_list(list: &List, measured: &Measured, with_shop: bool) {
    let [own, reference, once] = [0, 1, 2].map(|at| added(measured, at, list.calls));
    let quotient = |over: &Added, under: &Added| Some(over.count? / under.count?);
    let shop = with_shop.then(|| 2 * PLAYERS.len());
    let counts = |at| Some(measured.count(at)? / own.count?);
    row(&[
        list.case.name.clone(),
        micros(own.time),
        count(own.count),
        times(own.time / reference.time),
        times(quotient(&own, &reference)),
        times(own.time / once.time),
        times(quotient(&own, &once)),
        shop.map_or("-".to_string(), |at| micros(measured.time(at))),
        times(shop.map(|at| measured.time(at) / own.time)),
        times(shop.and_then(counts)),
    ]);
}
