//! second: the independent second program. It reads event records on standard input and prints what `plan` has to print by
//! document 01, so that the two can be compared byte for byte (`compare.sh`). Written from document 01 alone, the summary from
//! request Q-1 of document 02, the refusal 18 from its request Q-2, the grid and kind 5 from its request Q-3; the rules stand in
//! `model.rs`. Build: `rustc -O --edition 2021 tests/compare/second.rs -o second` (std only).
//!
//!     second [--check] [--counts]              the lines of `plan`
//!     second horizon                           these five read the records in silence, then answer about the board as it
//!     second busy T                            stands: first line `answer N` with 01's number, rows only if N is 0
//!     second openings W H E D [START COLUMN [MOST]]      rows `start column` after the pair (0 0), at most MOST (1000),
//!                                              then `more` or `end`
//!     second board                             row `W H now`, or `W H now grid` where the grid is not 1, then
//!                                              `slot id w h e d column start finish phase` by slot
//!     second stamp T                           as board, with the phases at T
//!     second summary [FILE ..]                 Q-1: the figures over all files, each a recording of its own (standard input
//!                                              as one recording where no file is named)
//!     second summary --add [FILE ..]           the sum of summaries that end in `stop end`, one or more in each file
//!     second --self-test                       the listing and the cases 1 to 12 of document 01, laxities about the limit of
//!                                              Q-2, the grids of Q-3, and summaries; ends with 1 if one fails
//!
//! --check   after each event: the board is sound by the whole definition, no live task has moved, and a submission is
//!           answered the same by the lists and, where the window is small, square by square. Ends with 3 if not.
//! --counts  on standard error: how often each answer came, by kind and planner, how many placements tell right methods from
//!           slips, and what was answered at the edges of Q-2's limit and on boards with a grid of 2 and more.
//! --limit N stops after N events instead of 1,000,000,000 (to try the stop itself); stands before `summary` too.
//!
//! A recording that ends with 15 or 16 is not answered by the five questions: a message on standard error names the event, and
//! nothing is printed. So with a wrong question, and its records are not read. A summary that stops at 15, 16 or the limit is
//! printed, and a message on standard error says so too. A file that cannot be opened or read, or a text under --add that is
//! not what a summary prints, is named on standard error, and nothing is printed. A file behind the stop is not opened.

mod model;

use model::{body_length, Answer, Ask, Board, Event, Telling, MOST_LAX};
use std::ffi::OsString;
use std::fs::File;
use std::io::{self, ErrorKind, Read, Write};
use std::os::unix::ffi::OsStrExt;
use std::process::exit;

const MOST_EVENTS: u64 = 1_000_000_000;

/// What comes next in a recording.
enum Next {
    End,
    Event(Event),
    CutShort(u8),
    Unknown(u8),
}

/// Records out of a stream, whatever the pieces in which its bytes arrive.
struct Records<R: Read> {
    from: R,
    /// what it is called if it cannot be read
    name: String,
    bytes: Vec<u8>,
    at: usize,
    filled: usize,
}

impl<R: Read> Records<R> {
    fn new(from: R, name: &str) -> Self {
        Records { from, name: name.to_string(), bytes: vec![0; 1 << 16], at: 0, filled: 0 }
    }

    /// Tries to have `want` bytes at hand. `idle` is called before the stream is asked for more.
    fn have(&mut self, want: usize, idle: &mut dyn FnMut()) -> bool {
        while self.filled - self.at < want {
            self.bytes.copy_within(self.at..self.filled, 0);
            self.filled -= self.at;
            self.at = 0;
            idle();
            match self.from.read(&mut self.bytes[self.filled..]) {
                Ok(0) => return false,
                Ok(n) => self.filled += n,
                Err(e) if e.kind() == ErrorKind::Interrupted => {}
                Err(e) => stop(&format!("{}: {e}", self.name)),
            }
        }
        true
    }

    fn next(&mut self, idle: &mut dyn FnMut()) -> Next {
        if !self.have(1, idle) {
            return Next::End;
        }
        let kind = self.bytes[self.at];
        let Some(length) = body_length(kind) else { return Next::Unknown(kind) };
        if !self.have(1 + length, idle) {
            return Next::CutShort(kind);
        }
        let event = Event::parse(kind, &self.bytes[self.at + 1..self.at + 1 + length]);
        self.at += 1 + length;
        Next::Event(event)
    }
}

fn stop(message: &str) -> ! {
    eprintln!("second: {message}");
    exit(2)
}

#[derive(Default)]
struct Counts {
    /// by answer number: submissions to planners 0 to 3, to other planners, then the kinds 1, 5, 3, 4
    answers: [[u64; 9]; 19],
    telling: [Telling; 4],
    /// by the number of live tasks at a submission
    live: Vec<u64>,
    ends: [u64; 19],
    /// by answer number: submissions with a laxity one below the limit of Q-2, at it, one above, further above
    limit: [[u64; 4]; 19],
    /// of those above it, by answer number: those to a board with 64 live tasks
    limit_full: [u64; 19],
    /// placed as late as the limit lets a task start; placed to start from 1,990,000,000 on
    last_start: u64,
    late_start: u64,
    /// by answer number: submissions to planners 0 to 3 and to other planners on a board with a grid of 2 and more
    grid: [[u64; 5]; 19],
    /// of those answered 5: of a width and height in range, so refused for the grid alone
    off_grid: u64,
    /// by grid: boards made by kind 5
    grids: [u64; 17],
    /// kinds 5 that were refused: g out of range; else W in range and no multiple; else W or H
    bad_grids: [u64; 3],
}

impl Counts {
    fn add(&mut self, event: &Event, answer: &Answer) {
        let place = match event {
            Event::Submit { planner, .. } => (*planner).min(4) as usize,
            Event::NewBoard { .. } => 5,
            Event::GridBoard { .. } => 6,
            Event::Clock { .. } => 7,
            Event::Withdraw { .. } => 8,
        };
        self.answers[answer.number as usize][place] += 1;
    }

    /// A submission at now, when so many tasks were live.
    fn add_laxity(&mut self, now: u64, live: usize, ask: &Ask, answer: &Answer) {
        let above = ask.laxity(now) - MOST_LAX as i64;
        if above >= -1 {
            self.limit[answer.number as usize][(above + 1).min(3) as usize] += 1;
        }
        if above >= 1 && live == 64 {
            self.limit_full[answer.number as usize] += 1;
        }
        if answer.number == 0 {
            self.last_start += (answer.start == now + MOST_LAX) as u64;
            self.late_start += (answer.start >= 1_990_000_000) as u64;
        }
    }

    /// What the grid had to do with an answer; the board is the one that followed.
    fn add_grid(&mut self, event: &Event, answer: &Answer, board: &Board) {
        match *event {
            Event::GridBoard { g, .. } if answer.number == 0 => self.grids[g as usize] += 1,
            Event::GridBoard { w, g, .. } => {
                let cause = if g < 1 || g > 16 { 0 } else if (1..=256).contains(&w) && w % g != 0 { 1 } else { 2 };
                self.bad_grids[cause] += 1;
            }
            Event::Submit { planner, ask } if board.g > 1 => {
                self.grid[answer.number as usize][planner.min(4) as usize] += 1;
                let in_range = (1..=board.w).contains(&ask.w) && (1..=board.h).contains(&ask.h);
                self.off_grid += (answer.number == 5 && in_range) as u64;
            }
            _ => {}
        }
    }

    fn print(&self) {
        eprintln!("answer  reference    horizon   stuffing       full      other  new board grid board      clock   withdraw");
        for (number, row) in self.answers.iter().enumerate() {
            if row.iter().any(|n| *n > 0) {
                let cells: Vec<String> = row.iter().map(|n| format!("{n:>10}")).collect();
                eprintln!("{number:>6} {}", cells.join(" "));
            }
            if self.ends[number] > 0 {
                eprintln!("{number:>6} {:>10} (end of the recording)", self.ends[number]);
            }
        }
        let share = |p: usize| {
            let all = self.answers[0][p] + self.answers[10][p];
            if all == 0 { "-".to_string() } else { format!("{}%", 100 * self.answers[0][p] / all) }
        };
        eprintln!("places among places and rejections: {} {} {} {}", share(0), share(1), share(2), share(3));
        eprintln!("planner   later start   tie   not leftmost   not first tried   inside a run   horizon/stuffing differ   stuffing/full differ   only horizon   only stuffing");
        for (p, t) in self.telling.iter().enumerate() {
            eprintln!(
                "{p:>7} {:>13} {:>5} {:>14} {:>17} {:>14} {:>25} {:>22} {:>14} {:>15}",
                t.later_start, t.tie, t.not_leftmost, t.not_first_tried, t.inside_run, t.horizon_stuffing, t.stuffing_full, t.only_horizon, t.only_stuffing
            );
        }
        let submissions: u64 = self.live.iter().sum();
        if submissions > 0 {
            let mean = self.live.iter().enumerate().map(|(i, n)| i as u64 * n).sum::<u64>() as f64 / submissions as f64;
            eprintln!("live tasks at a submission: mean {mean:.1}, at 64: {} of {submissions}", self.live[64]);
        }
        eprintln!("answer   laxity 1 below the limit   at it   1 above   further above   above it and 64 live");
        for (number, row) in self.limit.iter().enumerate() {
            if row.iter().any(|n| *n > 0) {
                eprintln!("{number:>6} {:>26} {:>7} {:>9} {:>15} {:>22}", row[0], row[1], row[2], row[3], self.limit_full[number]);
            }
        }
        eprintln!("placed at the last start that the limit allows: {}; to start from 1,990,000,000 on: {}", self.last_start, self.late_start);
        eprintln!("answer  reference    horizon   stuffing       full      other  (boards with a grid of 2 and more)");
        for (number, row) in self.grid.iter().enumerate() {
            if row.iter().any(|n| *n > 0) {
                let cells: Vec<String> = row.iter().map(|n| format!("{n:>10}")).collect();
                eprintln!("{number:>6} {}", cells.join(" "));
            }
        }
        eprintln!("answered 5 for the grid alone: {}", self.off_grid);
        eprintln!("boards by kind 5, of the grids 1 to 16: {:?}; refused for g, for W no multiple, for the rest: {:?}", &self.grids[1..], self.bad_grids);
    }
}

/// Number and space, or newline, at the end of a row.
fn put(out: &mut Vec<u8>, mut n: u64, then: u8) {
    let mut digits = [0u8; 20];
    let mut i = digits.len();
    loop {
        i -= 1;
        digits[i] = b'0' + (n % 10) as u8;
        n /= 10;
        if n == 0 {
            break;
        }
    }
    out.extend_from_slice(&digits[i..]);
    out.push(then);
}

struct Options {
    check: bool,
    counts: bool,
    limit: u64,
}

/// Runs a recording from the board of zeros; each answer goes to `line` (number, kind, answer). Gives the board it ends with.
fn run<R: Read>(from: R, options: &Options, counts: &mut Counts, line: &mut dyn FnMut(u64, u8, &Answer), idle: &mut dyn FnMut()) -> Board {
    let mut records = Records::new(from, "standard input");
    let mut board = Board::zeros();
    let nothing = |number| Answer { number, column: 0, start: 0, finish: 0 };
    for number in 1..=options.limit {
        match records.next(idle) {
            Next::End => break,
            Next::CutShort(kind) => {
                counts.ends[15] += 1;
                line(number, kind, &nothing(15));
                break;
            }
            Next::Unknown(kind) => {
                counts.ends[16] += 1;
                line(number, kind, &nothing(16));
                break;
            }
            Next::Event(event) => {
                if options.counts {
                    if let Event::Submit { planner, ask } = event {
                        counts.live.resize(65, 0);
                        counts.live[board.tasks.len()] += 1;
                        if planner <= 3 {
                            let told = board.telling(planner, &ask);
                            let sum = &mut counts.telling[planner as usize];
                            sum.later_start += told.later_start;
                            sum.tie += told.tie;
                            sum.not_leftmost += told.not_leftmost;
                            sum.not_first_tried += told.not_first_tried;
                            sum.inside_run += told.inside_run;
                            sum.horizon_stuffing += told.horizon_stuffing;
                            sum.stuffing_full += told.stuffing_full;
                            sum.only_horizon += told.only_horizon;
                            sum.only_stuffing += told.only_stuffing;
                        }
                    }
                }
                let before = if options.check { Some(board.clone()) } else { None };
                let live = board.tasks.len();
                let answer = board.apply(&event);
                if let Some(before) = before {
                    if let Some(fault) = check(&before, &event, &answer, &board) {
                        eprintln!("second: check failed at event {number} ({event:?}, answer {answer:?}): {fault}");
                        exit(3);
                    }
                }
                counts.add(&event, &answer);
                counts.add_grid(&event, &answer, &board);
                if let Event::Submit { ask, .. } = event {
                    counts.add_laxity(board.now, live, &ask, &answer);
                }
                line(number, event.kind(), &answer);
            }
        }
    }
    board
}

/// What is wrong with a step, by 01's sentences on what follows, Q-2's on what is too lax and Q-3's on the grid.
fn check(before: &Board, event: &Event, answer: &Answer, after: &Board) -> Option<String> {
    if let Event::Submit { ask, .. } = event {
        if let Some(difference) = before.methods_differ(ask) {
            return Some(difference);
        }
        let too_lax = before.now + ask.e + 10_000_000 < ask.d;
        if matches!(answer.number, 0 | 8 | 9 | 10) && too_lax || answer.number == 18 && !too_lax {
            return Some(format!("too lax: {too_lax}"));
        }
        // in whole steps, counted and not divided
        let steps = (1..=256).any(|k| k * before.g == ask.w);
        let in_range = (1..=before.w).contains(&ask.w) && (1..=before.h).contains(&ask.h);
        if !matches!(answer.number, 1 | 3 | 4 | 5) && !(steps && in_range) || answer.number == 5 && steps && in_range {
            return Some(format!("width in steps of {}: {steps}, sizes in range: {in_range}", before.g));
        }
        if answer.number == 0 && !(0..256).any(|k| 1 + k * before.g == answer.column) {
            return Some(format!("begins off the grid of {}", before.g));
        }
    }
    if after.sound() {
        if let Some(fault) = after.fault() {
            return Some(fault);
        }
    }
    if answer.number != 0 && answer.number != 2 && before != after {
        return Some("a refusal or rejection changed the board".into());
    }
    let device = match *event {
        Event::NewBoard { w, h } => Some((w, h, 1)),
        Event::GridBoard { w, h, g } => Some((w, h, g)),
        _ => None,
    };
    if let Some((w, h, g)) = device {
        let fresh = after.tasks.is_empty() && after.now == 0 && after.free.len() == 64;
        let good = w <= 256 && (1..=1024).contains(&h) && g <= 16 && (1..=256).any(|k| k * g == w && g > 0);
        let want = if good { (0, (w, h, g)) } else { (2, (0, 0, 0)) };
        return if fresh && (answer.number, (after.w, after.h, after.g)) == want { None } else { Some("new board is not as asked".into()) };
    }
    if (before.w, before.h, before.g) != (after.w, after.h, after.g) {
        return Some("the board changed its size or grid".into());
    }
    for old in &before.tasks {
        let left = match event {
            Event::Clock { .. } => old.finish() <= after.now,
            Event::Withdraw { id } => answer.number == 0 && *id == old.id,
            _ => false,
        };
        if left == after.tasks.contains(old) {
            return Some(format!("moved, lost or kept: {old:?}"));
        }
    }
    let newcomers: Vec<_> = after.tasks.iter().filter(|t| !before.tasks.contains(t)).collect();
    match event {
        Event::Submit { ask, .. } if answer.number == 0 => {
            let lowest = (1..=64).find(|s| before.tasks.iter().all(|t| t.slot != *s));
            let [new] = newcomers[..] else { return Some("not one new task".into()) };
            let as_asked = (new.id, new.w, new.h, new.e, new.d) == (ask.id, ask.w, ask.h, ask.e, ask.d);
            let as_answered = (new.column, new.start, new.finish()) == (answer.column, answer.start, answer.finish);
            if !as_asked || !as_answered || Some(new.slot) != lowest || before.now != after.now {
                return Some(format!("booked otherwise: {new:?}"));
            }
        }
        _ => {
            if !newcomers.is_empty() {
                return Some(format!("out of nothing: {newcomers:?}"));
            }
        }
    }
    None
}

// ---- the programs ----------------------------------------------------------------------------------------------------

const HEADER: &[u8] = b"event kind answer column start finish\n";

fn row(out: &mut Vec<u8>, number: u64, kind: u8, answer: &Answer) {
    put(out, number, b' ');
    put(out, kind as u64, b' ');
    put(out, answer.number, b' ');
    put(out, answer.column, b' ');
    put(out, answer.start, b' ');
    put(out, answer.finish, b'\n');
}

fn send(bytes: &mut Vec<u8>) {
    let mut out = io::stdout().lock();
    if let Err(e) = out.write_all(bytes).and_then(|_| out.flush()) {
        stop(&format!("standard output: {e}"));
    }
    bytes.clear();
}

fn plan(options: &Options) {
    let out = std::cell::RefCell::new(HEADER.to_vec());
    let mut counts = Counts::default();
    run(
        io::stdin().lock(),
        options,
        &mut counts,
        &mut |number, kind, answer| {
            let mut out = out.borrow_mut();
            row(&mut out, number, kind, answer);
            if out.len() > 1 << 16 {
                send(&mut out);
            }
        },
        &mut || send(&mut out.borrow_mut()),
    );
    send(&mut out.borrow_mut());
    if options.counts {
        counts.print();
    }
}

#[derive(Debug)]
enum Question {
    Horizon,
    Busy(u64),
    Openings { ask: Ask, after: (u64, u64), most: usize },
    Board,
    Stamp(u64),
}

fn told(board: &Board, question: &Question) -> String {
    let mut text = String::new();
    let tasks = |text: &mut String, t: u64| {
        // a grid of 1 is not told, as in 01
        let grid = if board.g == 1 { String::new() } else { format!(" {}", board.g) };
        *text += &format!("{} {} {}{grid}\n", board.w, board.h, board.now);
        let mut by_slot: Vec<_> = board.tasks.iter().collect();
        by_slot.sort_by_key(|k| k.slot);
        for k in by_slot {
            let phase = k.phase(t);
            *text += &format!("{} {} {} {} {} {} {} {} {} {phase}\n", k.slot, k.id, k.w, k.h, k.e, k.d, k.column, k.start, k.finish());
        }
    };
    let number = match question {
        _ if !board.sound() => 1,
        Question::Horizon => {
            for (first, last, release) in board.horizon() {
                text += &format!("{first} {last} {release}\n");
            }
            0
        }
        Question::Busy(t) => match board.busy(*t) {
            Ok(n) => {
                text += &format!("{n}\n");
                0
            }
            Err(number) => number,
        },
        Question::Openings { ask, after, most } => match board.openings(ask, *after, *most) {
            Ok((pairs, more)) => {
                for (s, c) in pairs {
                    text += &format!("{s} {c}\n");
                }
                text += if more { "more\n" } else { "end\n" };
                0
            }
            Err(number) => number,
        },
        Question::Board => {
            tasks(&mut text, board.now);
            0
        }
        Question::Stamp(t) => {
            tasks(&mut text, *t);
            0
        }
    };
    format!("answer {number}\n{text}")
}

fn number(word: &str, what: &str, most: u64) -> u64 {
    match word.parse::<u64>() {
        Ok(n) if n <= most && word.bytes().all(|b| b.is_ascii_digit()) => n,
        _ => stop(&format!("{what} is to be a number from 0 to {most}, not '{word}'")),
    }
}

const USAGE: &str = "usage: second [--check] [--counts] [--limit N] <records
       second [--check] horizon | busy T | openings W H E D [START COLUMN [MOST]] | board | stamp T <records
       second [--check] [--limit N] summary [FILE ..]      (no file: <records)
       second summary --add [FILE ..]                      (no file: <summaries)
       second --self-test";

fn main() {
    let mut options = Options { check: false, counts: false, limit: MOST_EVENTS };
    // file names may be any bytes; the rest are words
    let mut words: Vec<OsString> = std::env::args_os().skip(1).collect();
    let (wide, short) = (u32::MAX as u64, u16::MAX as u64);
    while words.first().is_some_and(|w| w.as_bytes().starts_with(b"--")) {
        let option = words.remove(0);
        match option.to_str() {
            Some("--check") => options.check = true,
            Some("--counts") => options.counts = true,
            Some("--limit") if !words.is_empty() => options.limit = number(&words.remove(0).to_string_lossy(), "the limit", MOST_EVENTS),
            Some("--self-test") => exit(self_test()),
            _ => stop(USAGE),
        }
    }
    if words.first().is_some_and(|w| w == "summary") {
        return match words.get(1) {
            Some(w) if w == "--add" => add_summaries(&words[2..]),
            _ => summary(&words[1..], &options),
        };
    }
    let words: Vec<&str> = words.iter().map(|w| w.to_str().unwrap_or_else(|| stop(USAGE))).collect();
    let question = match words[..] {
        [] => return plan(&options),
        ["horizon"] => Question::Horizon,
        ["busy", t] => Question::Busy(number(t, "T", wide)),
        ["board"] => Question::Board,
        ["stamp", t] => Question::Stamp(number(t, "T", wide)),
        ["openings", w, h, e, d, ref rest @ ..] if matches!(rest.len(), 0 | 2 | 3) => Question::Openings {
            ask: Ask { id: 0, w: number(w, "W", short), h: number(h, "H", short), e: number(e, "E", wide), d: number(d, "D", wide) },
            after: match rest {
                [start, column, ..] => (number(start, "START", wide), number(column, "COLUMN", short)),
                _ => (0, 0),
            },
            most: rest.get(2).map_or(1000, |m| number(m, "MOST", wide) as usize),
        },
        _ => stop(USAGE),
    };
    let mut counts = Counts::default();
    let mut halt = None;
    let board = run(io::stdin().lock(), &options, &mut counts, &mut |n, kind, a| if let 15 | 16 = a.number { halt = Some((n, kind, a.number)) }, &mut || {});
    if let Some((event, kind, number)) = halt {
        let what = if number == 15 { "cut short" } else { "of no known kind" };
        stop(&format!("event {event} (kind {kind}) is {what} ({number}): not answered"));
    }
    send(&mut told(&board, &question).into_bytes());
}

// ---- the summary of Q-1 ------------------------------------------------------------------------------------------------

const PLANNERS: [&str; 4] = ["reference", "horizon", "stuffing", "full"];
const CLASSES: [&str; 4] = ["A", "B", "C", "Other"];

/// The class of a laxity, by its place in CLASSES.
fn class(laxity: i64) -> usize {
    match laxity {
        1..=50 => 0,
        51..=100 => 1,
        101..=200 => 2,
        _ => 3,
    }
}

/// Of one planner and class; submitted is the sum of the first three.
#[derive(Clone, Copy, Default)]
struct Cell {
    taken: u64,
    rejected: u64,
    refused: u64,
    waited: u64,
}

impl Cell {
    fn submitted(&self) -> u128 {
        self.taken as u128 + self.rejected as u128 + self.refused as u128
    }
}

#[derive(Clone, Copy, Default)]
struct Figures {
    cells: [[Cell; 4]; 4],
    without_class: u64,
    events: u64,
    files: u64,
}

/// A submission and its answer, as the events have them.
struct Submission {
    planner: u64,
    ask: Ask,
    arrival: u64,
    answer: u64,
    start: u64,
}

/// Lines of a summary: the header, sixteen rows, the refused without class, the end.
const SUMMARY_LINES: usize = 1 + 16 + 1 + 1;

impl Figures {
    fn count(&mut self, s: &Submission) {
        if let 1 | 3..=8 = s.answer {
            self.without_class += 1;
            return;
        }
        // 3 and 8 were not the answer: the planner is one of the four, and the laxity is not below 0
        let cell = &mut self.cells[s.planner as usize][class(s.ask.laxity(s.arrival))];
        match s.answer {
            0 => {
                cell.taken += 1;
                cell.waited += s.start - s.arrival;
            }
            // 18 too is refused in the class of its laxity, and that is Other
            9 | 18 => cell.refused += 1,
            10 => cell.rejected += 1,
            n => unreachable!("{n} is no answer to a submission"),
        }
    }

    /// The line of that number, from 0, with its newline; the last one with what follows `stop`.
    fn line(&self, at: usize, end: &[u8]) -> Vec<u8> {
        let text = match at {
            0 => "planner class submitted taken rejected refused waited taken/submitted".to_string(),
            1..=16 => {
                let (p, c) = ((at - 1) / 4, (at - 1) % 4);
                let cell = self.cells[p][c];
                let submitted = cell.submitted();
                format!("{} {} {submitted} {} {} {} {} {}/{submitted}", PLANNERS[p], CLASSES[c], cell.taken, cell.rejected, cell.refused, cell.waited, cell.taken)
            }
            17 => format!("refused without class {}", self.without_class),
            _ => format!("events {} files {} stop ", self.events, self.files),
        };
        let mut line = text.into_bytes();
        if at + 1 == SUMMARY_LINES {
            line.extend_from_slice(end);
        }
        line.push(b'\n');
        line
    }

    fn print(&self, end: &[u8]) -> Vec<u8> {
        (0..SUMMARY_LINES).flat_map(|at| self.line(at, end)).collect()
    }
}

/// The figures of recordings, each with its name, and what stands behind `stop`. The next one is asked for (opened) when the
/// one before has ended.
fn summarize<R: Read>(recordings: &mut dyn Iterator<Item = (Vec<u8>, R)>, options: &Options) -> (Figures, Vec<u8>) {
    let mut figures = Figures::default();
    let limit = b"limit".to_vec();
    if options.limit == 0 {
        return (figures, limit);
    }
    for (name, from) in recordings {
        figures.files += 1;
        let mut records = Records::new(from, &String::from_utf8_lossy(&name));
        let mut board = Board::zeros();
        let halt = |number: u64, event: u64, kind: u8| [format!("{number} ").as_bytes(), &name, format!(" {event} {kind}").as_bytes()].concat();
        for number in 1.. {
            match records.next(&mut || {}) {
                Next::End => break,
                Next::CutShort(kind) => return (figures, halt(15, number, kind)),
                Next::Unknown(kind) => return (figures, halt(16, number, kind)),
                Next::Event(event) => {
                    let arrival = board.now;
                    let before = if options.check { Some(board.clone()) } else { None };
                    let answer = board.apply(&event);
                    if let Some(before) = before {
                        if let Some(fault) = check(&before, &event, &answer, &board) {
                            eprintln!("second: check failed in {} at event {number} ({event:?}, answer {answer:?}): {fault}", records.name);
                            exit(3);
                        }
                    }
                    if let Event::Submit { planner, ask } = event {
                        figures.count(&Submission { planner, ask, arrival, answer: answer.number, start: answer.start });
                    }
                    figures.events += 1;
                    if figures.events == options.limit {
                        return (figures, limit);
                    }
                }
            }
        }
    }
    (figures, b"end".to_vec())
}

fn open(name: &OsString) -> File {
    File::open(name).unwrap_or_else(|e| stop(&format!("{}: {e}", name.to_string_lossy())))
}

fn summary(files: &[OsString], options: &Options) {
    let (figures, end) = if files.is_empty() {
        summarize(&mut std::iter::once((b"-".to_vec(), io::stdin().lock())), options)
    } else {
        summarize(&mut files.iter().map(|f| (f.as_bytes().to_vec(), open(f))), options)
    };
    send(&mut figures.print(&end));
    if end != b"end" {
        eprintln!("second: the summary stops before the end: {}", String::from_utf8_lossy(&end));
    }
}

/// Adds every summary of the text. A line is read loosely, word by word, and then has to be what the figures read from it
/// print, so that nothing but a printed summary passes. The mistake is the number of the line, from 1, and what is wrong.
fn add_text(sum: &mut Figures, text: &[u8]) -> Result<(), (usize, &'static str)> {
    let lines: Vec<&[u8]> = text.split_inclusive(|b| *b == b'\n').collect();
    let mut one = Figures::default();
    for (i, line) in lines.iter().enumerate() {
        let at = i % SUMMARY_LINES;
        let loose = String::from_utf8_lossy(line);
        let words: Vec<&str> = loose.split_whitespace().collect();
        let figure = |at: usize| words.get(at).and_then(|w| w.parse::<u64>().ok()).unwrap_or(0);
        match at {
            0 => one = Figures::default(),
            1..=16 => one.cells[(at - 1) / 4][(at - 1) % 4] = Cell { taken: figure(3), rejected: figure(4), refused: figure(5), waited: figure(6) },
            17 => one.without_class = figure(3),
            _ => (one.events, one.files) = (figure(1), figure(3)),
        }
        if one.line(at, b"end") != *line {
            return Err((i + 1, "not what a summary that ends in `stop end` prints here"));
        }
        let plus = |a: &mut u64, b: u64| a.checked_add(b).map(|s| *a = s).is_some();
        let fits = match at {
            0 => true,
            1..=16 => {
                let (from, to) = (one.cells[(at - 1) / 4][(at - 1) % 4], &mut sum.cells[(at - 1) / 4][(at - 1) % 4]);
                let parts = plus(&mut to.taken, from.taken) && plus(&mut to.rejected, from.rejected) && plus(&mut to.refused, from.refused);
                parts && plus(&mut to.waited, from.waited) && from.submitted() <= u64::MAX as u128 && to.submitted() <= u64::MAX as u128
            }
            17 => plus(&mut sum.without_class, one.without_class),
            _ => plus(&mut sum.events, one.events) && plus(&mut sum.files, one.files),
        };
        if !fits {
            return Err((i + 1, "the sum does not fit in 64 bits"));
        }
    }
    if lines.is_empty() || lines.len() % SUMMARY_LINES != 0 {
        return Err((lines.len() + 1, "ends before a summary does"));
    }
    Ok(())
}

fn add_summaries(files: &[OsString]) {
    let mut sum = Figures::default();
    let mut add = |name: &str, from: &mut dyn Read| {
        let mut text = Vec::new();
        if let Err(e) = from.read_to_end(&mut text) {
            stop(&format!("{name}: {e}"));
        }
        if let Err((line, fault)) = add_text(&mut sum, &text) {
            stop(&format!("{name}, line {line}: {fault}"));
        }
    };
    if files.is_empty() {
        add("standard input", &mut io::stdin().lock());
    }
    for f in files {
        add(&f.to_string_lossy(), &mut open(f));
    }
    send(&mut sum.print(b"end"));
}

// ---- self-test: the listing and the cases of document 01, the limit of Q-2, the grids of Q-3, summaries ---------------

/// Table 1 of the source: a, e, d, w, h, on 10 x 6.
const TABLE_1: [(u64, u64, u64, u64, u64); 7] =
    [(0, 20, 30, 3, 3), (0, 3, 10, 7, 5), (1, 12, 15, 3, 5), (1, 3, 10, 2, 2), (2, 2, 10, 3, 4), (2, 3, 20, 5, 1), (3, 2, 20, 3, 2)];

const REFERENCE: u64 = 0;
const HORIZON: u64 = 1;
const STUFFING: u64 = 2;
const FULL: u64 = 3;

fn board(w: u64, h: u64) -> Event {
    Event::NewBoard { w, h }
}
fn grid_board(w: u64, h: u64, g: u64) -> Event {
    Event::GridBoard { w, h, g }
}
/// A submission of height 1.
fn submit(planner: u64, id: u64, w: u64, e: u64, d: u64) -> Event {
    Event::Submit { planner, ask: Ask { id, w, h: 1, e, d } }
}
fn clock(instant: u64) -> Event {
    Event::Clock { instant }
}
fn withdraw(id: u64) -> Event {
    Event::Withdraw { id }
}

fn recorded(events: &[Event]) -> Vec<u8> {
    let mut bytes = Vec::new();
    for e in events {
        e.write(&mut bytes);
    }
    bytes
}

/// What `second` prints for these bytes, and the board after. Read in one piece and then byte by byte.
fn printed_bytes(bytes: &[u8]) -> (String, Board) {
    struct Pieces<'a>(&'a [u8]);
    impl Read for Pieces<'_> {
        fn read(&mut self, buffer: &mut [u8]) -> io::Result<usize> {
            let n = self.0.len().min(1);
            buffer[..n].copy_from_slice(&self.0[..n]);
            self.0 = &self.0[n..];
            Ok(n)
        }
    }
    let options = Options { check: true, counts: false, limit: MOST_EVENTS };
    let mut out = HEADER.to_vec();
    let after = run(bytes, &options, &mut Counts::default(), &mut |n, k, a| row(&mut out, n, k, a), &mut || {});
    let mut again = HEADER.to_vec();
    let same = run(Pieces(bytes), &options, &mut Counts::default(), &mut |n, k, a| row(&mut again, n, k, a), &mut || {});
    assert!(out == again && after == same, "bytes that arrive one by one are read otherwise");
    (String::from_utf8(out).unwrap(), after)
}

/// The lines after the header, without event number and kind: "answer column start finish" each.
fn answers(events: &[Event]) -> Vec<String> {
    let (text, _) = printed_bytes(&recorded(events));
    text.lines().skip(1).map(|l| l.splitn(3, ' ').nth(2).unwrap().to_string()).collect()
}

fn after(events: &[Event]) -> Board {
    printed_bytes(&recorded(events)).1
}

/// The answers of the submissions only, as (column,start) or the number.
fn places(events: &[Event]) -> String {
    let lines = answers(events);
    let mut words = Vec::new();
    for (e, line) in events.iter().zip(&lines) {
        if let Event::Submit { .. } = e {
            let n: Vec<u64> = line.split(' ').map(|w| w.parse().unwrap()).collect();
            words.push(if n[0] == 0 { format!("({},{})", n[1], n[2]) } else { format!("{}", n[0]) });
        }
    }
    assert_eq!(lines.len(), events.len());
    words.join(" ")
}

/// Table 1 played by one planner, its tasks submitted as they arrive; the last deadline may be another.
fn table_1(planner: u64, last_by: u64, last_deadline: u64) -> Vec<Event> {
    let mut events = vec![board(10, 6)];
    let mut now = 0;
    for (i, (a, e, d, w, h)) in TABLE_1.iter().enumerate() {
        if *a > now {
            now = *a;
            events.push(clock(now));
        }
        let (p, d) = if i == 6 { (last_by, last_deadline) } else { (planner, *d) };
        events.push(Event::Submit { planner: p, ask: Ask { id: i as u64 + 1, w: *w, h: *h, e: *e, d } });
    }
    events
}

fn self_test() -> i32 {
    let mut wrong = 0;
    let mut right = 0;
    let mut same = |name: &str, got: String, want: &str| {
        if got == want {
            right += 1;
        } else {
            wrong += 1;
            eprintln!("{name}:\n  got  {got:?}\n  want {want:?}");
        }
    };

    // the listing
    let listing = [
        board(4, 1),
        submit(STUFFING, 1, 2, 2, 9),
        submit(STUFFING, 2, 3, 4, 9),
        submit(STUFFING, 3, 1, 5, 5),
        submit(FULL, 3, 1, 5, 5),
        clock(2),
        withdraw(2),
    ];
    let bytes = recorded(&listing);
    let text = "event kind answer column start finish\n1 1 0 0 0 0\n2 2 0 1 0 2\n3 2 0 1 2 6\n4 2 10 0 0 0\n5 2 0 4 0 5\n6 3 0 0 0 0\n7 4 14 0 0 0\n";
    same("listing", printed_bytes(&bytes).0, text);
    same("record lengths", bytes.len().to_string(), "87"); // 5 + 4 x 18 + 5 + 5
    same("record bytes", format!("{:?}", &bytes[..23]), "[1, 4, 0, 1, 0, 2, 2, 1, 0, 0, 0, 2, 0, 1, 0, 2, 0, 0, 0, 9, 0, 0, 0]");

    // cases 1 to 3
    same("case 1", places(&table_1(HORIZON, HORIZON, 20)), "(1,0) (4,0) (4,3) (7,3) (7,6) (4,15) (4,18)");
    same("case 2, Stuffing", places(&table_1(STUFFING, STUFFING, 20)), "(1,0) (4,0) (4,3) (7,3) (7,6) (4,15) (7,8)");
    same("case 2, Full", places(&table_1(FULL, FULL, 20)), "(1,0) (4,0) (4,3) (7,3) (7,6) (4,15) (7,8)");
    same("case 3", places(&table_1(REFERENCE, REFERENCE, 20)), "(1,0) (4,0) 10 10 10 10 (4,3)");

    // case 4
    let b = after(&table_1(HORIZON, HORIZON, 20));
    same("case 4", told(&b, &Question::Horizon), "answer 0\n10 10 3\n9 9 8\n7 8 18\n1 6 20\n");
    let busy: Vec<String> = [2, 3, 8, 15, 20, 2_000_000_000, 2_000_000_001].iter().map(|t| told(&b, &Question::Busy(*t)).replace('\n', " ")).collect();
    same("busy after case 1", busy.concat(), "answer 11 answer 0 8 answer 0 6 answer 0 8 answer 0 0 answer 0 0 answer 12 ");

    // case 5: Horizon or Stuffing for the first six (the same places), then task 7 by each
    for first in [HORIZON, STUFFING] {
        let last = |by: u64, d: u64| places(&table_1(first, by, d)).rsplit(' ').next().unwrap().to_string();
        same("case 5, d 10", format!("{} {}", last(HORIZON, 10), last(STUFFING, 10)), "10 (7,8)");
        same("case 5, d 9", format!("{} {} {}", last(HORIZON, 9), last(STUFFING, 9), last(FULL, 9)), "10 10 10");
    }

    // case 6
    for (planner, want) in [(REFERENCE, "10"), (STUFFING, "10"), (HORIZON, "(4,0)"), (FULL, "(4,0)")] {
        let mut events = listing[..3].to_vec();
        events.push(submit(planner, 3, 1, 5, 5));
        same("case 6", places(&events), &format!("(1,0) (1,2) {want}"));
    }

    // case 7
    let events = [board(4, 1), listing[1], listing[2], withdraw(2), submit(STUFFING, 3, 1, 5, 5)];
    same("case 7", places(&events), "(1,0) (1,2) (3,0)");

    // case 8
    let events = [board(5, 1), submit(REFERENCE, 1, 2, 1, 9), submit(REFERENCE, 2, 1, 9, 9), clock(1), submit(STUFFING, 3, 2, 1, 5)];
    same("case 8", places(&events), "(1,0) (3,0) (1,1)");

    // case 9
    let b = after(&[board(3, 1), submit(FULL, 1, 1, 2, 9)]);
    let ask = Ask { id: 0, w: 2, h: 1, e: 1, d: 3 };
    let open = |after, most| told(&b, &Question::Openings { ask, after, most });
    same("case 9, all", open((0, 0), 1000), "answer 0\n0 2\n1 2\n2 1\n2 2\nend\n");
    same("case 9, six words", open((0, 0), 3), "answer 0\n0 2\n1 2\n2 1\nmore\n");
    same("case 9, after", open((2, 1), 3), "answer 0\n2 2\nend\n");
    same("case 9, none asked", open((0, 0), 0), "answer 0\nmore\n");
    same("case 9, past the last", open((2, 2), 3), "answer 0\nend\n");
    same("case 9, far past", open((4_294_967_295, 4_294_967_295), 3), "answer 0\nend\n");
    let refused = |w, h, e, d| told(&b, &Question::Openings { ask: Ask { id: 0, w, h, e, d }, after: (0, 0), most: 9 });
    let all = [refused(4, 1, 0, 0), refused(1, 2, 1, 3), refused(1, 1, 0, 3), refused(1, 1, 3, 2), told(&Board::zeros(), &Question::Openings { ask, after: (0, 0), most: 9 })];
    same("openings refused", all.concat(), "answer 5\nanswer 5\nanswer 6\nanswer 8\nanswer 1\n");
    let far = Ask { id: 0, w: 3, h: 1, e: 1_000_000, d: 11_000_000 };
    same(
        "openings over 10,000,000 ticks",
        told(&b, &Question::Openings { ask: far, after: (9_999_999, 1), most: 9 }) + &told(&b, &Question::Openings { ask: far, after: (0, 0), most: 2 }),
        "answer 0\n10000000 1\nend\nanswer 0\n2 1\n3 1\nmore\n",
    );
    let late = after(&[board(3, 1), clock(1_989_000_000), submit(FULL, 1, 1, 2, 1_990_000_000)]);
    let far = Ask { id: 0, w: 3, h: 1, e: 1_000_000, d: 2_000_000_000 };
    same(
        "openings up to 2,000,000,000",
        told(&late, &Question::Openings { ask: far, after: (1_998_999_999, 0), most: 9 }) + &told(&late, &Question::Openings { ask: far, after: (0, 0), most: 2 }),
        "answer 0\n1998999999 1\n1999000000 1\nend\nanswer 0\n1989000002 1\n1989000003 1\nmore\n",
    );

    // case 10
    for planner in 0..4 {
        let events = [board(7, 3), submit(planner, 1, 7, 5, 5)];
        same("case 10, w = W, d = now + e", places(&events), "(1,0)");
        same("case 10, w = W + 1", places(&[board(7, 3), submit(planner, 1, 8, 5, 5)]), "5");
        same("case 10, d one less", places(&[board(7, 3), clock(100), submit(planner, 1, 7, 5, 104), submit(planner, 1, 7, 5, 105)]), "8 (1,100)");
    }

    // case 11: 64 one-column tasks; id 65 as wide as the board has no place; the sixth ends first
    for planner in 0..4 {
        let mut events = vec![board(64, 1)];
        for id in 1..=64 {
            events.push(submit(planner, id, 1, if id == 6 { 5 } else { 50 }, 50));
        }
        events.extend([submit(planner, 65, 64, 10, 10), submit(planner, 66, 1, 10, 20), clock(5), submit(planner, 67, 1, 10, 20), submit(planner, 68, 1, 1, 50)]);
        let text = places(&events);
        let last: Vec<&str> = text.split(' ').skip(64).collect();
        same("case 11", last.join(" "), "9 9 (6,5) 9");
        let after = told(&after(&events), &Question::Board);
        let slots: Vec<String> = after.lines().skip(2).map(|l| l.split(' ').take(2).collect::<Vec<_>>().join(":")).collect();
        let want: Vec<String> = (1..=64).map(|s| format!("{s}:{}", if s == 6 { 67 } else { s })).collect();
        same("case 11, slots", slots.join(" "), &want.join(" "));
    }

    // case 12
    let start = [board(4, 2), submit(FULL, 1, 4, 5, 9), submit(FULL, 2, 4, 4, 9), clock(3)];
    let mut again = start.to_vec();
    again.extend([clock(3), clock(2)]);
    same("case 12", answers(&again)[4..].join(","), "0 0 0 0,11 0 0 0");
    same("case 12, nothing changes", told(&after(&again), &Question::Board), &told(&after(&start), &Question::Board));
    same("case 12, board", told(&after(&start), &Question::Board), "answer 0\n4 2 3\n1 1 4 1 5 9 1 0 5 running\n2 2 4 1 4 9 1 5 9 waiting\n");
    same("stamp at 5", told(&after(&start), &Question::Stamp(5)), "answer 0\n4 2 3\n1 1 4 1 5 9 1 0 5 ended\n2 2 4 1 4 9 1 5 9 running\n");
    same("stamp at 0", told(&after(&start), &Question::Stamp(0)), "answer 0\n4 2 3\n1 1 4 1 5 9 1 0 5 running\n2 2 4 1 4 9 1 5 9 waiting\n");

    // refusals: each number, and that the first test wins: 3, 4, 5, 6, 7, 8, 18
    let ask = |id, w, h, e, d| Ask { id, w, h, e, d };
    let one = |planner: u64, a: Ask| answers(&[board(4, 2), submit(FULL, 7, 4, 5, 9), clock(3), Event::Submit { planner, ask: a }])[3].clone();
    for (planner, a, want) in [
        (4, ask(0, 0, 0, 0, 0), 3),
        (255, ask(8, 1, 1, 1, 9), 3),
        (3, ask(0, 0, 0, 0, 0), 4),
        (3, ask(7, 0, 0, 0, 0), 5),
        (3, ask(8, 5, 1, 1, 20), 5),
        (3, ask(8, 1, 3, 1, 20), 5),
        (3, ask(8, 1, 0, 1, 20), 5),
        (3, ask(8, 65535, 1, 1, 20), 5),
        (3, ask(7, 1, 1, 0, 0), 6),
        (3, ask(8, 1, 1, 1_000_001, 20), 6),
        (3, ask(8, 1, 1, 1, 2_000_000_001), 6),
        (3, ask(8, 1, 1, 4_294_967_295, 4_294_967_295), 6),
        (3, ask(7, 1, 1, 1, 0), 7),
        (3, ask(8, 1, 1, 1, 3), 8),
        (3, ask(8, 4, 1, 1, 4), 10),
        (0, ask(8, 4, 1, 1, 9), 10),
        (4, ask(8, 1, 1, 1, 10_000_005), 3),
        (3, ask(0, 1, 1, 1, 10_000_005), 4),
        (3, ask(8, 5, 1, 1, 10_000_005), 5),
        (3, ask(8, 1, 3, 1, 10_000_005), 5),
        (3, ask(8, 1, 1, 0, 10_000_005), 6),
        (3, ask(8, 1, 1, 1_000_001, 11_000_005), 6),
        (3, ask(8, 1, 1, 1, 2_000_000_001), 6),
        (3, ask(7, 1, 1, 1, 10_000_005), 7),
        (3, ask(7, 1, 1, 1, 2_000_000_000), 7),
        (3, ask(8, 1, 1, 1, 10_000_005), 18),
        (0, ask(8, 4, 1, 1, 10_000_005), 18),
        (0, ask(8, 4, 1, 1, 10_000_004), 10),
        (3, ask(8, 1, 1, 1, 1_999_999_999), 18),
        (3, ask(8, 1, 1, 1_000_000, 2_000_000_000), 18),
    ] {
        same(&format!("refusal {a:?}"), one(planner, a), &format!("{want} 0 0 0"));
    }

    // a laxity of 10,000,000 passes, one more gives 18, by each planner, early and late, and in openings
    for (now, e) in [(5, 4), (0, 1), (0, 1_000_000), (1_000_000_000, 77), (1_988_999_999, 1_000_000)] {
        let limit = now + e + 10_000_000;
        for planner in 0..4 {
            let start = [board(10, 6), clock(now)];
            let with = |d: u64| places(&[&start[..], &[submit(planner, 1, 3, e, d)]].concat());
            same("laxity 9,999,999", with(limit - 1), &format!("(1,{now})"));
            same("laxity 10,000,000", with(limit), &format!("(1,{now})"));
            same("laxity 10,000,001", with(limit + 1), "18");
            same("the last deadline", with(2_000_000_000), "18");
            same("laxity -1", with(now + e - 1), "8");
        }
        let b = after(&[board(10, 6), clock(now)]);
        let open = |w, h, d, start| told(&b, &Question::Openings { ask: Ask { id: 0, w, h, e, d }, after: (start, 9), most: 1 });
        same("openings, laxity 10,000,000", open(1, 1, limit, now + 10_000_000), &format!("answer 0\n{} 10\nend\n", now + 10_000_000));
        same("openings, laxity 9,999,999", open(1, 1, limit - 1, now + 9_999_999), &format!("answer 0\n{} 10\nend\n", now + 9_999_999));
        same("openings, laxity 10,000,001", open(1, 1, limit + 1, now), "answer 18\n");
        same("openings, the last deadline", open(1, 1, 2_000_000_000, now), "answer 18\n");
        same("openings, too wide and too lax", open(11, 1, limit + 1, now) + &open(1, 7, limit + 1, now), "answer 5\nanswer 5\n");
        same("openings, d out of range", open(1, 1, 2_000_000_001, now), "answer 6\n");
        same("openings, laxity -1", open(1, 1, now + e - 1, now), "answer 8\n");
    }
    // 64 live and too lax: 18, not 9; a live id and too lax: 7
    for planner in 0..4 {
        let mut events = vec![board(64, 1), clock(5)];
        events.extend((1..=64).map(|id| submit(planner, id, 1, 50, 10_000_055)));
        let wall = events.len();
        for (id, d) in [(65, 10_000_009), (65, 10_000_010), (65, 2_000_000_000), (65, 8), (65, 9), (64, 10_000_010), (64, 10_000_009), (64, 8), (0, 10_000_010), (65, 2_000_000_001)] {
            events.push(submit(planner, id, 1, 4, d));
        }
        events.push(submit(4, 65, 1, 4, 10_000_010));
        same("64 live and too lax", answers(&events)[wall..].iter().map(|l| l.split(' ').next().unwrap()).collect::<Vec<_>>().join(" "), "9 18 18 8 9 7 7 7 4 6 3");
        let b = after(&events);
        let open = |d| told(&b, &Question::Openings { ask: Ask { id: 1, w: 1, h: 1, e: 4, d }, after: (0, 0), most: 1 });
        same("64 live, openings", open(10_000_009) + &open(10_000_010) + &open(8), "answer 0\n55 1\nmore\nanswer 18\nanswer 8\n");
    }
    // ten tasks over all columns hold the board for 10,000,000 ticks: the last start that the limit lets a task have is the only one
    for now in [0, 1_988_000_000] {
        for planner in 1..4 {
            let mut events = vec![board(4, 1), clock(now)];
            events.extend((1..=10).map(|id| submit(planner, id, 4, 1_000_000, now + 11_000_000)));
            for (id, d) in [(11, 9_999_999), (12, 10_000_001), (13, 10_000_000), (14, 10_000_000)] {
                events.push(submit(planner, id, 4, 7, now + 7 + d));
            }
            let walls: Vec<String> = (0..10).map(|k| format!("(1,{})", now + k * 1_000_000)).collect();
            same("the last start", places(&events), &format!("{} 10 18 (1,{}) 10", walls.join(" "), now + 10_000_000));
            // the live tasks stay, as the clock goes on; what is asked is judged from the new now
            events.extend([clock(now + 1), submit(planner, 15, 4, 7, now + 10_000_008), submit(planner, 16, 4, 7, now + 10_000_009), clock(now + 7), submit(planner, 17, 4, 7, now + 10_000_014), submit(planner, 18, 4, 7, now + 10_000_015)]);
            let said = places(&events);
            same("the last start, later", said.rsplitn(5, ' ').take(4).collect::<Vec<_>>().join(" "), &format!("18 (1,{}) 18 10", now + 10_000_007));
        }
    }
    same("the last id, the last instant", answers(&[board(256, 1024), clock(2_000_000_000 - 1_000_000), Event::Submit { planner: 0, ask: ask(4_294_967_295, 256, 1024, 1_000_000, 2_000_000_000) }, withdraw(4_294_967_295), clock(2_000_000_000), withdraw(4_294_967_295), withdraw(0), clock(2_000_000_001), clock(1_999_999_999)])[1..].join(","), "0 0 0 0,0 1 1999000000 2000000000,14 0 0 0,0 0 0 0,13 0 0 0,13 0 0 0,12 0 0 0,11 0 0 0");
    for (w, h, want) in [(0, 1, 2), (1, 0, 2), (257, 1, 2), (1, 1025, 2), (65535, 65535, 2), (1, 1, 0), (256, 1024, 0)] {
        same("new board", answers(&[board(w, h)])[0].clone(), &format!("{want} 0 0 0"));
    }
    same("unsound", answers(&[submit(9, 0, 0, 0, 0), clock(4_294_967_295), withdraw(0), board(3, 1), clock(5), board(0, 1), submit(0, 1, 1, 1, 9), clock(1), withdraw(1), board(3, 1), submit(0, 1, 1, 1, 9)]).join(","), "1 0 0 0,1 0 0 0,1 0 0 0,0 0 0 0,0 0 0 0,2 0 0 0,1 0 0 0,1 0 0 0,1 0 0 0,0 0 0 0,0 1 0 1");
    same("unsound, questions", [Question::Horizon, Question::Busy(0), Question::Board, Question::Stamp(0)].iter().map(|q| told(&Board::zeros(), q)).collect(), "answer 1\nanswer 1\nanswer 1\nanswer 1\n");

    // best fit is not first fit: the wider run on the left; and Stuffing passes a start of a waiting task by
    let two_runs = [board(9, 1), submit(FULL, 1, 4, 1, 9), submit(FULL, 2, 1, 9, 9), submit(FULL, 3, 2, 1, 9), submit(FULL, 4, 1, 9, 9), submit(FULL, 5, 1, 9, 9), clock(1)];
    for planner in 0..3 {
        let mut events = two_runs.to_vec();
        events.push(submit(planner, 6, 2, 1, 9));
        same("best fit", places(&events), "(1,0) (5,0) (6,0) (8,0) (9,0) (6,1)");
    }

    // 8 columns in steps of four
    let first = |line: &String| line.split(' ').next().unwrap().to_string();
    let numbers = |events: &[Event]| answers(events).iter().map(first).collect::<Vec<_>>().join(" ");
    let steps = after(&[grid_board(8, 1, 4)]);
    let open = |b: &Board, w, after, most| told(b, &Question::Openings { ask: Ask { id: 0, w, h: 1, e: 1, d: 3 }, after, most });
    same("grid, openings", open(&steps, 4, (0, 0), 1000), "answer 0\n0 1\n0 5\n1 1\n1 5\n2 1\n2 5\nend\n");
    same("grid, five openings", open(&steps, 4, (0, 0), 5), "answer 0\n0 1\n0 5\n1 1\n1 5\n2 1\nmore\n");
    for (pair, want) in [((0, 1), "0 5\nmore"), ((0, 2), "0 5\nmore"), ((0, 4), "0 5\nmore"), ((0, 5), "1 1\nmore"), ((0, 6), "1 1\nmore"), ((1, 65_535), "2 1\nmore"), ((2, 0), "2 1\nmore"), ((2, 3), "2 5\nend"), ((2, 5), "end"), ((2, 8), "end"), ((3, 0), "end")] {
        same(&format!("grid, openings after {pair:?}"), open(&steps, 4, pair, 1), &format!("answer 0\n{want}\n"));
    }
    same("grid, openings of all columns", open(&steps, 8, (0, 0), 9), "answer 0\n0 1\n1 1\n2 1\nend\n");
    for w in [0, 1, 2, 3, 5, 6, 7, 9, 12, 65_535] {
        same("grid, openings of a width off it", open(&steps, w, (0, 0), 9), "answer 5\n");
    }
    let events = [grid_board(12, 1, 4), submit(FULL, 1, 4, 2, 9), submit(FULL, 2, 8, 1, 9), submit(FULL, 3, 12, 1, 9)];
    same("grid, a live task", open(&after(&events[..2]), 8, (0, 0), 9), "answer 0\n0 5\n1 5\n2 1\n2 5\nend\n");
    same("grid, two live tasks", open(&after(&events[..3]), 4, (0, 9), 9), "answer 0\n1 5\n1 9\n2 1\n2 5\n2 9\nend\n");
    same("grid, three live tasks", places(&events), "(1,0) (5,0) (1,2)");
    same("grid, board", told(&after(&events), &Question::Board), "answer 0\n12 1 0 4\n1 1 4 1 2 9 1 0 2 running\n2 2 8 1 1 9 5 0 1 running\n3 3 12 1 1 9 1 2 3 waiting\n");
    same("grid, stamp", told(&after(&events[..2]), &Question::Stamp(2)), "answer 0\n12 1 0 4\n1 1 4 1 2 9 1 0 2 ended\n");
    same("grid, horizon and busy", told(&after(&events[..3]), &Question::Horizon) + &told(&after(&events[..3]), &Question::Busy(1)), "answer 0\n5 12 1\n1 4 2\nanswer 0\n4\n");
    for (planner, want) in [(REFERENCE, "10"), (HORIZON, "(1,1)"), (STUFFING, "(1,1)"), (FULL, "(1,1)")] {
        let events = [grid_board(8, 1, 4), submit(planner, 1, 4, 1, 3), submit(planner, 2, 3, 1, 3), submit(planner, 2, 4, 1, 3), submit(planner, 3, 8, 1, 3), submit(planner, 4, 12, 1, 3)];
        same("grid, steps side by side", places(&events), &format!("(1,0) 5 (5,0) {want} 5"));
        // best fit in steps: at 1 the run 13-16 is narrower than 1-8
        let events = [grid_board(20, 1, 4), submit(FULL, 1, 8, 1, 9), submit(FULL, 2, 4, 2, 9), submit(FULL, 3, 4, 1, 9), submit(FULL, 4, 4, 9, 9), clock(1), submit(planner, 5, 4, 1, 9)];
        let want = if planner == FULL { "(1,1)" } else { "(13,1)" };
        same("grid, best fit", places(&events), &format!("(1,0) (9,0) (13,0) (17,0) {want}"));
    }
    // which devices there are: g from 1 to 16, W a multiple
    for g in 0..=18 {
        let divides = [1, 2, 3, 4, 5, 6, 8, 10, 12, 15, 16].contains(&g);
        let events = [grid_board(240, 1, g), submit(FULL, 1, g, 1, 9), submit(FULL, 2, 240, 1, 9), submit(FULL, 3, g + 1, 1, 9)];
        let want = match g {
            1 => "0 0 0 0",
            _ if divides => "0 0 0 5",
            _ => "2 1 1 1",
        };
        same(&format!("W 240, grid {g}"), numbers(&events), want);
    }
    for (w, h, g, want) in [(10, 1, 4, 2), (8, 1, 0, 2), (8, 1, 17, 2), (8, 1, 255, 2), (17, 1, 17, 2), (255, 1, 255, 2), (0, 0, 0, 2), (0, 1, 4, 2), (8, 0, 4, 2), (260, 1, 4, 2), (272, 1, 16, 2), (257, 1, 1, 2), (8, 1_025, 4, 2), (65_535, 65_535, 255, 2), (8, 1, 16, 2), (256, 1, 3, 2), (256, 1_024, 16, 0), (255, 1, 15, 0), (16, 1, 16, 0), (1, 1, 1, 0), (256, 1, 1, 0)] {
        let events = [grid_board(12, 1, 3), clock(7), grid_board(w, h, g), withdraw(1), clock(0), clock(8), submit(FULL, 1, 16, 1, 9)];
        let said = numbers(&events);
        let size = told(&after(&events[..3]), &Question::Board);
        if want == 2 {
            same("a refused grid", format!("{said} {size}"), "0 0 2 1 1 1 1 answer 1\n");
        } else {
            let fourth = if g == 1 { String::new() } else { format!(" {g}") };
            let last = match (w, g) {
                (1, _) | (_, 15) => 5,
                _ => 0,
            };
            same("a grid", format!("{said} {size}"), &format!("0 0 0 13 0 0 {last} answer 0\n{w} {h} 0{fourth}\n"));
        }
    }
    let mut events = vec![grid_board(256, 2, 16)];
    events.extend((1..=16).map(|id| submit(REFERENCE, id, 16, 2, 9)));
    events.extend([submit(REFERENCE, 17, 16, 2, 9), submit(STUFFING, 17, 16, 2, 9), submit(FULL, 18, 240, 2, 9), submit(FULL, 19, 8, 2, 9), submit(FULL, 19, 256, 2, 9)]);
    let side_by_side: Vec<String> = (0..16).map(|k| format!("({},0)", 1 + 16 * k)).collect();
    same("W 256, grid 16", places(&events), &format!("{} 10 (1,2) (17,2) 5 (1,4)", side_by_side.join(" ")));
    // off the grid beside other causes: 3 and 4 before 5, all others after; 64 are live
    let mut events = vec![grid_board(256, 1, 4)];
    events.extend((1..=64).map(|id| submit(STUFFING, id, 4, 5, 5)));
    for (planner, id, e, d) in [(4, 65, 1, 9), (3, 0, 1, 9), (3, 65, 0, 9), (3, 64, 1, 9), (3, 65, 10, 9), (3, 65, 1, 20_000_000), (3, 65, 1, 9)] {
        events.extend([submit(planner, id, 6, e, d), submit(planner, id, 8, e, d)]);
    }
    let said = numbers(&events);
    same("off the grid, and more", said.split(' ').skip(65).collect::<Vec<_>>().join(" "), "3 3 4 4 5 6 5 7 5 8 5 18 5 9");
    // the grid lasts until the next board, and a grid of 1 is kind 1's in all but the record
    let events = [grid_board(8, 1, 4), submit(FULL, 1, 2, 1, 9), board(8, 1), submit(FULL, 1, 2, 1, 9), grid_board(8, 1, 2), submit(FULL, 1, 3, 1, 9), submit(FULL, 1, 2, 1, 9), grid_board(8, 1, 1), submit(FULL, 1, 3, 1, 9)];
    same("one board after the other", numbers(&events), "0 5 0 0 0 5 0 0 0");
    same("grid 1 is not told", told(&after(&events), &Question::Board), "answer 0\n8 1 0\n1 1 3 1 1 9 1 0 1 running\n");
    for planner in 0..4 {
        let events = table_1(planner, planner, 20);
        let with_grid: Vec<Event> = events.iter().map(|e| if let Event::NewBoard { w, h } = *e { grid_board(w, h, 1) } else { *e }).collect();
        same("Table 1 by kind 5", printed_bytes(&recorded(&with_grid)).0, &printed_bytes(&recorded(&events)).0.replace("\n1 1 0", "\n1 5 0"));
        assert!(after(&with_grid) == after(&events));
    }
    let bytes_of = |event: Event| format!("{:?}", recorded(&[event]));
    same("record of kind 5", bytes_of(grid_board(258, 1_024, 1)) + &bytes_of(grid_board(0, 65_535, 255)), "[5, 2, 1, 0, 4, 1][5, 0, 0, 255, 255, 255]");
    same("record of kind 5, read and written", bytes_of(Event::parse(5, &[2, 1, 0, 4, 1])) + &bytes_of(Event::parse(5, &[8, 0, 1, 0, 16])), "[5, 2, 1, 0, 4, 1][5, 8, 0, 1, 0, 16]");

    // endings
    let with = |tail: &[u8]| {
        let mut bytes = recorded(&[board(4, 1), clock(1)]);
        bytes.extend_from_slice(tail);
        printed_bytes(&bytes).0.lines().skip(3).collect::<Vec<_>>().join(",")
    };
    same("end", with(&[]), "");
    same("no byte at all", printed_bytes(&[]).0, "event kind answer column start finish\n");
    for kind in [1u8, 2, 3, 4, 5] {
        for have in 0..body_length(kind).unwrap() {
            let mut tail = vec![kind];
            tail.resize(1 + have, 0xff);
            same("cut short", with(&tail), &format!("3 {kind} 15 0 0 0"));
        }
    }
    for kind in [0u8, 6, 7, 128, 255] {
        same("unknown kind", with(&[kind]), &format!("3 {kind} 16 0 0 0"));
        same("unknown kind, bytes after", with(&[kind, 3, 9, 0, 0, 0]), &format!("3 {kind} 16 0 0 0"));
    }
    for limit in [0, 1, 2, 3] {
        let mut out = HEADER.to_vec();
        let options = Options { check: true, counts: false, limit };
        run(&recorded(&[board(4, 1), clock(1)])[..], &options, &mut Counts::default(), &mut |n, k, a| row(&mut out, n, k, a), &mut || {});
        let want = ["", "1 1 0 0 0 0\n", "1 1 0 0 0 0\n2 3 0 0 0 0\n", "1 1 0 0 0 0\n2 3 0 0 0 0\n"][limit as usize];
        same("limit", String::from_utf8(out).unwrap(), &format!("event kind answer column start finish\n{want}"));
    }

    // the summary of Q-1: rows without their names and ratio, by planner and class
    let figures = |files: &[Vec<u8>], limit: u64| {
        let options = Options { check: true, counts: false, limit };
        let (figures, end) = summarize(&mut files.iter().enumerate().map(|(i, f)| (format!("f{}", i + 1).into_bytes(), &f[..])), &options);
        String::from_utf8(figures.print(&end)).unwrap()
    };
    let rows = |text: &str| -> Vec<String> {
        // those in which anything is counted, and the two lines behind the rows
        text.lines().skip(1).filter(|l| !l.ends_with(" 0 0 0 0 0 0/0")).map(|l| l.to_string()).collect()
    };
    let one = |events: &[Event]| rows(&figures(&[recorded(events)], MOST_EVENTS)).join(",");
    let nothing = "planner class submitted taken rejected refused waited taken/submitted
reference A 0 0 0 0 0 0/0
reference B 0 0 0 0 0 0/0
reference C 0 0 0 0 0 0/0
reference Other 0 0 0 0 0 0/0
horizon A 0 0 0 0 0 0/0
horizon B 0 0 0 0 0 0/0
horizon C 0 0 0 0 0 0/0
horizon Other 0 0 0 0 0 0/0
stuffing A 0 0 0 0 0 0/0
stuffing B 0 0 0 0 0 0/0
stuffing C 0 0 0 0 0 0/0
stuffing Other 0 0 0 0 0 0/0
full A 0 0 0 0 0 0/0
full B 0 0 0 0 0 0/0
full C 0 0 0 0 0 0/0
full Other 0 0 0 0 0 0/0
refused without class 0
events 0 files 1 stop end
";
    same("summary of no event", figures(&[vec![]], MOST_EVENTS), nothing);
    let want_listing = nothing
        .replace("stuffing A 0 0 0 0 0 0/0", "stuffing A 2 2 0 0 2 2/2")
        .replace("stuffing Other 0 0 0 0 0 0/0", "stuffing Other 1 0 1 0 0 0/1")
        .replace("full Other 0 0 0 0 0 0/0", "full Other 1 1 0 0 0 1/1")
        .replace("events 0", "events 7");
    same("summary of the listing", figures(&[bytes.clone()], MOST_EVENTS), &want_listing);
    for (planner, want) in [(REFERENCE, "reference A 7 3 4 0 0 3/7"), (HORIZON, "horizon A 7 7 0 0 36 7/7"), (STUFFING, "stuffing A 7 7 0 0 26 7/7"), (FULL, "full A 7 7 0 0 26 7/7")] {
        same("summary of Table 1", one(&table_1(planner, planner, 20)), &format!("{want},refused without class 0,events 11 files 1 stop end"));
    }
    let table = recorded(&table_1(HORIZON, HORIZON, 20));
    same("summary of two files", rows(&figures(&[table.clone(), table.clone()], MOST_EVENTS)).join(","), "horizon A 14 14 0 0 72 14/14,refused without class 0,events 22 files 2 stop end");
    same("each file begins with the board of zeros", rows(&figures(&[table.clone(), recorded(&[submit(FULL, 99, 1, 1, 30)])], MOST_EVENTS)).join(","), "horizon A 7 7 0 0 36 7/7,refused without class 1,events 12 files 2 stop end");
    // laxities at the edges of the classes, at now 0 and later
    for now in [0, 1_000_000] {
        for (laxity, want) in [(0, "Other"), (1, "A"), (50, "A"), (51, "B"), (100, "B"), (101, "C"), (200, "C"), (201, "Other"), (10_000_000, "Other")] {
            for (planner, name) in PLANNERS.iter().enumerate() {
                let events = [board(4, 1), clock(now), submit(planner as u64, 1, 1, 7, now + 7 + laxity)];
                same("class", one(&events), &format!("{name} {want} 1 1 0 0 0 1/1,refused without class 0,events 3 files 1 stop end"));
            }
        }
    }
    for now in [0, 1_000_000] {
        for laxity in [10_000_001, 900_000_000] {
            for (planner, name) in PLANNERS.iter().enumerate() {
                let events = [board(4, 1), clock(now), submit(planner as u64, 1, 1, 7, now + 7 + laxity)];
                same("refused with 18", one(&events), &format!("{name} Other 1 0 0 1 0 0/1,refused without class 0,events 3 files 1 stop end"));
            }
        }
    }
    // each refusal: 9 in its class, 18 in Other, 1 and 3 to 8 without; 2, 11 to 14 are no submissions; a task withdrawn stays taken
    same("refused with 1, and 2", one(&[submit(0, 1, 1, 1, 9), board(0, 1), submit(9, 1, 1, 1, 9)]), "refused without class 2,events 3 files 1 stop end");
    for (planner, a, number) in [(4, ask(8, 1, 1, 1, 9), 3), (3, ask(0, 1, 1, 1, 9), 4), (3, ask(8, 5, 1, 1, 9), 5), (3, ask(8, 1, 1, 0, 9), 6), (3, ask(7, 1, 1, 1, 9), 7), (3, ask(8, 1, 1, 1, 3), 8), (3, ask(7, 1, 1, 1, 20_000_000), 7)] {
        let events = [board(4, 2), submit(FULL, 7, 4, 5, 9), clock(3), Event::Submit { planner, ask: a }];
        same("refused without class", answers(&events)[3].clone() + "," + &one(&events), &format!("{number} 0 0 0,full A 1 1 0 0 0 1/1,refused without class 1,events 4 files 1 stop end"));
    }
    let mut crowd = vec![board(64, 1)];
    crowd.extend((1..=64).map(|id| submit(STUFFING, id, 1, 50, 50)));
    crowd.extend([submit(REFERENCE, 65, 1, 10, 60), submit(HORIZON, 65, 1, 10, 110), submit(FULL, 65, 1, 10, 10), submit(FULL, 64, 1, 10, 10)]);
    same("refused with 9", one(&crowd), "reference A 1 0 0 1 0 0/1,horizon B 1 0 0 1 0 0/1,stuffing Other 64 64 0 0 0 64/64,full Other 1 0 0 1 0 0/1,refused without class 1,events 69 files 1 stop end");
    crowd.extend([submit(REFERENCE, 65, 1, 10, 10_000_011), submit(FULL, 65, 1, 10, 2_000_000_000), submit(FULL, 65, 1, 10, 10_000_010), submit(FULL, 64, 1, 10, 10_000_011)]);
    same("refused with 9 and 18", one(&crowd), "reference A 1 0 0 1 0 0/1,reference Other 1 0 0 1 0 0/1,horizon B 1 0 0 1 0 0/1,stuffing Other 64 64 0 0 0 64/64,full Other 3 0 0 3 0 0/3,refused without class 2,events 73 files 1 stop end");
    same("kind 5 is no submission", one(&[submit(FULL, 1, 4, 5, 9), clock(9), grid_board(8, 1, 4), clock(30), grid_board(8, 1, 17), submit(FULL, 1, 4, 5, 9), grid_board(8, 1, 4), submit(FULL, 1, 3, 5, 9), submit(FULL, 1, 8, 5, 60), submit(FULL, 2, 8, 5, 60)]), "full B 2 2 0 0 5 2/2,refused without class 3,events 10 files 1 stop end");
    let events = [board(4, 1), submit(FULL, 1, 4, 5, 9), submit(FULL, 2, 4, 4, 99), withdraw(2), withdraw(2), withdraw(1), clock(3), clock(2), clock(4_000_000_000), submit(FULL, 2, 4, 4, 99)];
    same("withdrawn", one(&events), "full A 1 1 0 0 0 1/1,full B 2 2 0 0 7 2/2,refused without class 0,events 10 files 1 stop end");
    // stops
    let tail = |tail: &[u8]| [&bytes[..], tail].concat();
    let last = |files: &[Vec<u8>], limit: u64| figures(files, limit).lines().last().unwrap().to_string();
    same("15", last(&[bytes.clone(), tail(&[4, 0]), bytes.clone()], MOST_EVENTS), "events 14 files 2 stop 15 f2 8 4");
    same("16", last(&[tail(&[255, 1]), vec![], bytes.clone()], MOST_EVENTS), "events 7 files 1 stop 16 f1 8 255");
    same("16 at once", last(&[vec![], vec![0], bytes.clone()], MOST_EVENTS), "events 0 files 2 stop 16 f2 1 0");
    same("limit inside", last(&[bytes.clone(), bytes.clone()], 8), "events 8 files 2 stop limit");
    same("limit at the end of a file", last(&[bytes.clone(), bytes.clone()], 7), "events 7 files 1 stop limit");
    same("limit at the very end", last(&[bytes.clone(), bytes.clone()], 14), "events 14 files 2 stop limit");
    same("limit before a 16", last(&[tail(&[9])], 7), "events 7 files 1 stop limit");
    same("limit not reached", last(&[bytes.clone(), bytes.clone()], 15), "events 14 files 2 stop end");
    // sums of summaries
    let add = |text: &str| -> String {
        let mut sum = Figures::default();
        match add_text(&mut sum, text.as_bytes()) {
            Ok(()) => String::from_utf8(sum.print(b"end")).unwrap(),
            Err((line, _)) => format!("line {line}"),
        }
    };
    let (l, t) = (want_listing.as_str(), figures(&[table.clone()], MOST_EVENTS));
    same("add one", add(l), l);
    same("add three", add(&format!("{l}{t}{l}")), &figures(&[bytes.clone(), table.clone(), bytes.clone()], MOST_EVENTS));
    same("add nothing", add(""), "line 1");
    same("add a part", add(&l[..l.len() - 1]), "line 19");
    same("add a line too few", add(l.strip_suffix("events 7 files 1 stop end\n").unwrap()), "line 19");
    same("add a line too many", add(&format!("{l}\n")), "line 20");
    for (from, to, line) in [
        ("planner class", "planner  class", 1),
        ("reference A 0", "reference A 00", 2),
        ("reference A 0", "reference B 0", 2),
        ("stuffing A 2 2 0", "stuffing A 2 1 0", 10),
        ("stuffing A 2 2 0", "stuffing A 3 2 0", 10),
        ("stuffing A 2 2 0 0 2 2/2", "stuffing A 2 2 0 0 2 1/1", 10),
        ("stuffing A 2 2 0 0 2 2/2", "stuffing A 2 2 0 0 2 2/3", 10),
        ("stuffing A 2 2 0 0 2 2/2", "stuffing A 2 2 0 0 +2 2/2", 10),
        ("stuffing A 2 2 0 0 2 2/2", "stuffing A 2 2 0 0 2 2/2 ", 10),
        ("stuffing A 2 2 0 0 2 2/2", "stuffing A 2 2 0 0 18446744073709551616 2/2", 10),
        ("stuffing A 2 2 0 0 2 2/2", "stuffing A 36893488147419103230 18446744073709551615 18446744073709551615 0 2 18446744073709551615/36893488147419103230", 10),
        ("class 0\n", "class 0\r\n", 18),
        ("stop end", "stop limit", 19),
        ("stop end", "stop 15 f 8 4", 19),
        ("stop end\n", "stop end", 19),
        ("events 7", "events 07", 19),
    ] {
        let wrong = l.replacen(from, to, 1);
        same(&format!("add {to:?}"), add(&wrong), &format!("line {line}"));
        same(&format!("add {to:?} behind another"), add(&format!("{t}{wrong}")), &format!("line {}", 19 + line));
    }
    for (from, to, line) in [
        ("stuffing A 2 2 0 0 2 2/2", "stuffing A 2 2 0 0 18446744073709551615 2/2", 10),
        ("full B 0 0 0 0 0 0/0", "full B 9223372036854775808 9223372036854775808 0 0 0 9223372036854775808/9223372036854775808", 15),
        ("full B 0 0 0 0 0 0/0", "full B 9223372036854775808 9223372036854775807 1 0 0 9223372036854775807/9223372036854775808", 15),
        ("without class 0", "without class 18446744073709551615", 18),
        ("events 7", "events 18446744073709551615", 19),
        ("files 1", "files 18446744073709551615", 19),
    ] {
        let large = l.replacen(from, to, 1);
        same("add a large one", add(&large), &large);
        same("add a large one twice", add(&format!("{large}{large}")), &format!("line {}", 19 + line));
    }

    if wrong == 0 {
        println!("second: self-test: {right} comparisons, all as the documents have them");
        0
    } else {
        eprintln!("second: self-test: {wrong} of {} comparisons failed", right + wrong);
        1
    }
}
