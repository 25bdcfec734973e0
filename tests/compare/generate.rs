//! generate: writes a recording of event records to standard output, the same for the same arguments.
//!
//!     generate PROFILE SEED EVENTS
//!
//! Build: `rustc -O --edition 2021 tests/compare/generate.rs -o generate` (std only). It keeps a board of `model.rs` beside
//! the recording, so that most events mean something: withdrawals of tasks that wait or run, ids that are live, clocks that
//! move to a finish or a start, one tick before it, to now, to now - 1. Each profile has boards for one planner and boards
//! for all four, and a few events in a hundred that are refused; among them deadlines about the limit of laxity and
//! far beyond, on any board, for live ids and where 64 tasks are live. Of each profile a third of the boards are made by kind 5,
//! with grids from 1 to 16: W is rounded to the grid, and so are the widths but for a few in a hundred. Profiles:
//!
//!     tiny     1 to 6 columns, or as many steps of the grid, short times: many ties, many equal finishes
//!     paper    96 x 64 and the workload of section 5.1 of the source: areas 50 to 500, aspect ratios 0.2 to 5, half of the
//!              tasks standing, e 5 to 100, laxity of the classes A, B, C
//!     wide     256 columns, many live tasks
//!     crowded  near 64 live tasks: answer 9, slots that are taken again
//!     late     times near 2,000,000,000, and windows as long as the limit of laxity lets them be, at any now
//!     bounds   fields at the edges of their ranges and beyond, unknown planners, boards and grids out of range; half of the
//!              boards late
//!     lax      laxities at the limit of 10,000,000 and about it, early and late: boards booked so far ahead that the last start
//!              within the limit decides, and boards with 64 live tasks
//!     grid     boards of kind 5, and a few of kind 1 between them: up to 256 columns, among them the prototype of the source
//!              with four columns a step; tasks of one step and of some, few live ones and 64
//!     cut      events of another profile, then a record cut short, an unknown kind or any bytes; at most EVENTS
//!     mixed    all but cut by turns

#[allow(dead_code)]
mod model;

use model::{body_length, Ask, Board, Event, Task, END_OF_TIME, LONGEST, MOST_LAX};
use std::io::{self, Write};
use std::process::exit;

/// splitmix64
struct Dice(u64);

impl Dice {
    fn roll(&mut self) -> u64 {
        self.0 = self.0.wrapping_add(0x9e37_79b9_7f4a_7c15);
        let mut z = self.0;
        z = (z ^ (z >> 30)).wrapping_mul(0xbf58_476d_1ce4_e5b9);
        z = (z ^ (z >> 27)).wrapping_mul(0x94d0_49bb_1331_11eb);
        z ^ (z >> 31)
    }
    /// from low to high, both included
    fn pick(&mut self, low: u64, high: u64) -> u64 {
        low + self.roll() % (high - low + 1)
    }
    fn percent(&mut self, n: u64) -> bool {
        self.roll() % 100 < n
    }
    fn one_of<T: Copy>(&mut self, of: &[T]) -> T {
        of[self.roll() as usize % of.len()]
    }
    fn fraction(&mut self) -> f64 {
        (self.roll() >> 11) as f64 / (1u64 << 53) as f64
    }
}

#[derive(Clone, Copy, PartialEq, Debug)]
enum Profile {
    Tiny,
    Paper,
    Wide,
    Crowded,
    Late,
    Bounds,
    Cut,
    Mixed,
    Lax,
    Grid,
}

const PLAIN: [(&str, Profile); 8] = [
    ("tiny", Profile::Tiny),
    ("paper", Profile::Paper),
    ("wide", Profile::Wide),
    ("crowded", Profile::Crowded),
    ("late", Profile::Late),
    ("bounds", Profile::Bounds),
    ("lax", Profile::Lax),
    ("grid", Profile::Grid),
];

/// How tasks come on one board.
struct Era {
    profile: Profile,
    /// one planner, or all
    planner: Option<u64>,
    /// ticks from one arrival to the next
    pace: (u64, u64),
    w: (u64, u64),
    e: (u64, u64),
    laxity: (u64, u64),
    /// of a hundred tasks, how many have a deadline about the limit of laxity or far beyond
    far: u64,
    /// of a hundred events, how many are meant to be refused or otherwise out of the common run
    odd: u64,
    /// of a hundred events, how many withdraw a waiting task
    withdraw: u64,
}

struct Maker {
    dice: Dice,
    board: Board,
    bytes: Vec<u8>,
    left: u64,
    next_id: u64,
    gone: Vec<u64>,
    pending_clock: bool,
}

impl Maker {
    fn emit(&mut self, event: Event) {
        if self.left == 0 {
            return;
        }
        self.left -= 1;
        event.write(&mut self.bytes);
        if let Event::Withdraw { id } = event {
            self.gone.push(id);
        }
        if self.gone.len() > 40 {
            self.gone.drain(..20);
        }
        self.board.apply(&event);
        if self.bytes.len() > 1 << 16 {
            self.flush();
        }
    }

    fn flush(&mut self) {
        let mut out = io::stdout().lock();
        if let Err(e) = out.write_all(&self.bytes).and_then(|_| out.flush()) {
            eprintln!("generate: standard output: {e}");
            exit(2);
        }
        self.bytes.clear();
    }

    fn task(&mut self, which: impl Fn(&Task) -> bool) -> Option<Task> {
        let chosen: Vec<&Task> = self.board.tasks.iter().filter(|t| which(t)).collect();
        if chosen.is_empty() {
            return None;
        }
        Some(chosen[self.dice.roll() as usize % chosen.len()].clone())
    }

    /// An id that is not live: mostly a new one, now and then one that was used before.
    fn fresh_id(&mut self) -> u64 {
        if !self.gone.is_empty() && self.dice.percent(20) {
            let id = self.dice.one_of(&self.gone);
            if id != 0 && self.board.tasks.iter().all(|t| t.id != id) {
                return id;
            }
        }
        loop {
            self.next_id = if self.next_id >= u32::MAX as u64 { 1 } else { self.next_id + 1 };
            if self.board.tasks.iter().all(|t| t.id != self.next_id) {
                return self.next_id;
            }
        }
    }

    /// The width in whole steps of the board's grid, rounded up; W is a multiple, so no width up to W becomes more.
    fn in_steps(&self, w: u64) -> u64 {
        w.next_multiple_of(self.board.g.max(1))
    }

    /// A width within the board that is no multiple of its grid; with a grid of 1 there is none, and it is any width.
    fn off_grid(&mut self) -> u64 {
        let (w, g) = (self.board.w.max(1), self.board.g.max(1));
        if g == 1 {
            return self.dice.pick(1, w);
        }
        // one column beside a number of steps, or any
        let steps = g * self.dice.pick(1, w / g);
        let drawn = match self.dice.pick(0, 2) {
            0 => steps - 1,
            1 => steps - g + 1,
            _ => self.dice.pick(1, w),
        };
        if drawn % g == 0 {
            drawn - 1
        } else {
            drawn
        }
    }

    /// A task that is not refused, if now leaves room for one.
    fn ask(&mut self, era: &Era) -> Ask {
        let (bw, bh, now) = (self.board.w.max(1), self.board.h.max(1), self.board.now);
        let dice = &mut self.dice;
        let (w, h, e, laxity) = if era.profile == Profile::Paper {
            let area = 50.0 + 450.0 * dice.fraction();
            let ratio = 1.0 + 4.0 * dice.fraction();
            let ratio = if dice.percent(50) { ratio } else { 1.0 / ratio };
            let w = (area / ratio).sqrt().round().max(1.0) as u64;
            let h = (area * ratio).sqrt().round().max(1.0) as u64;
            let laxity = match dice.pick(0, 2) {
                0 => dice.pick(1, 50),
                1 => dice.pick(50, 100),
                _ => dice.pick(100, 200),
            };
            (w, h, dice.pick(5, 100), laxity)
        } else {
            let w = if dice.percent(4) { dice.pick(1, bw) } else { dice.pick(era.w.0, era.w.1) };
            let e = if dice.percent(30) { era.e.0 + (era.e.1 - era.e.0) / 2 } else { dice.pick(era.e.0, era.e.1) };
            let laxity = if dice.percent(40) { dice.pick(era.laxity.0, era.laxity.0 + (era.laxity.1 - era.laxity.0) / 8) } else { dice.pick(era.laxity.0, era.laxity.1) };
            (w, dice.pick(1, bh), e, laxity)
        };
        let e = e.clamp(1, LONGEST.min((END_OF_TIME - now).max(1)));
        let laxity = if era.profile == Profile::Late && dice.percent(12) { MOST_LAX } else { laxity };
        let d = (now + e + laxity).min(END_OF_TIME);
        let id = self.fresh_id();
        let w = self.in_steps(w.clamp(1, bw));
        Ask { id, w, h: h.clamp(1, bh), e, d }
    }

    fn planner(&mut self, era: &Era) -> u64 {
        match era.planner {
            Some(p) if self.dice.percent(97) => p,
            _ => self.dice.pick(0, 3),
        }
    }

    /// A deadline at the limit of laxity or beside it, or far beyond, as one with a digit too many.
    fn far_deadline(&mut self, e: u64) -> u64 {
        let limit = self.board.now + e + MOST_LAX;
        let d = match self.dice.pick(0, 15) {
            0..=4 => limit,
            5 => limit - 1,
            6 => limit - self.dice.pick(2, 100_000),
            _ => return self.too_far(e),
        };
        // out of range where the board is late, so mostly the last deadline then
        if self.dice.percent(90) {
            d.min(END_OF_TIME)
        } else {
            d
        }
    }

    /// A deadline beyond the limit of laxity; where now leaves no room for one, mostly the last deadline, otherwise one out of
    /// range.
    fn too_far(&mut self, e: u64) -> u64 {
        let limit = self.board.now + e + MOST_LAX;
        if limit >= END_OF_TIME && self.dice.percent(70) {
            return END_OF_TIME;
        }
        let d = match self.dice.pick(0, 9) {
            0..=3 => limit + 1,
            4 => limit + self.dice.pick(2, 100_000),
            5 => self.dice.pick(limit + 1, END_OF_TIME.max(limit + 1)),
            6 => (10 * limit).min(END_OF_TIME),
            7 => END_OF_TIME - 1,
            _ => END_OF_TIME,
        };
        d.min(u32::MAX as u64)
    }

    fn submit(&mut self, era: &Era) {
        let mut ask = self.ask(era);
        let planner = self.planner(era);
        if self.dice.percent(era.far) {
            ask.d = self.far_deadline(ask.e);
        }
        if self.board.g > 1 && self.dice.percent(3) {
            ask.w = self.off_grid();
        }
        self.emit(Event::Submit { planner, ask });
    }

    /// 62 to 64 tasks side by side that end late, then tasks that have no slot, or a last one.
    fn crowd(&mut self, era: &Era) {
        let planner = self.planner(era);
        for _ in 0..self.dice.pick(62, 64) {
            let mut ask = self.ask(era);
            ask.w = self.in_steps(1);
            ask.e = ask.e.max(era.e.1 / 2);
            ask.d = (self.board.now + ask.e + self.dice.pick(0, MOST_LAX)).min(END_OF_TIME);
            self.emit(Event::Submit { planner, ask });
        }
        for _ in 0..self.dice.pick(4, 12) {
            match self.dice.pick(0, 9) {
                0 => self.odd(era),
                1 => self.clock_on(era),
                _ => self.submit(era),
            }
        }
    }

    /// All columns held, one task after the other, for about as long as the limit of laxity; then tasks whose last start is
    /// about there.
    fn wall(&mut self, era: &Era) {
        let (w, now) = (self.board.w, self.board.now);
        let planner = self.dice.pick(1, 3);
        // the last of the ten ends at the limit, or a tick or two beside it, or leaves room for some tasks
        let rest = self.dice.one_of(&[0, 0, 0, 1, 1, 2, 2_000]);
        for k in 1..=10 {
            let e = if k == 10 { LONGEST - rest } else { LONGEST };
            let ask = Ask { id: self.fresh_id(), w, h: 1, e, d: (now + e + MOST_LAX).min(END_OF_TIME) };
            self.emit(Event::Submit { planner, ask });
        }
        for _ in 0..self.dice.pick(4, 12) {
            let mut ask = self.ask(era);
            ask.e = self.dice.one_of(&[1, 2, 1_000, ask.e, LONGEST]);
            let limit = now + ask.e + MOST_LAX;
            ask.d = self.dice.one_of(&[limit - 2, limit - 1, limit - 1, limit, limit, limit, limit + 1, limit + 1, limit + 2, END_OF_TIME]);
            if self.dice.percent(90) {
                ask.d = ask.d.min(END_OF_TIME);
            }
            let planner = self.planner(era);
            self.emit(Event::Submit { planner, ask });
        }
    }

    /// A clock to an instant at which something happens, or right before: mostly the next one, `far` times in a hundred any.
    fn clock_to_event(&mut self, far: u64) {
        let now = self.board.now;
        let mut at: Vec<u64> = self.board.tasks.iter().map(|t| t.finish()).collect();
        if self.dice.percent(30) {
            at.extend(self.board.tasks.iter().map(|t| t.start).filter(|s| *s > now));
        }
        let instant = match at.iter().min() {
            None => now + 1,
            Some(first) if !self.dice.percent(far) => *first,
            Some(_) => self.dice.one_of(&at),
        };
        let instant = if self.dice.percent(15) { (instant - 1).max(now) } else { instant };
        self.emit(Event::Clock { instant: instant.min(END_OF_TIME) });
    }

    fn clock_on(&mut self, era: &Era) {
        let step = self.dice.pick(era.pace.0, era.pace.1);
        self.emit(Event::Clock { instant: (self.board.now + step).min(END_OF_TIME) });
    }

    fn withdraw_waiting(&mut self) -> bool {
        let now = self.board.now;
        match self.task(|t| t.start > now) {
            Some(t) => {
                self.emit(Event::Withdraw { id: t.id });
                true
            }
            None => false,
        }
    }

    /// An event out of the common run, most of them to be refused.
    fn odd(&mut self, era: &Era) {
        let (w, h, now) = (self.board.w, self.board.h, self.board.now);
        let mut ask = self.ask(era);
        let mut planner = self.planner(era);
        let live = self.task(|_| true);
        let never = u32::MAX as u64;
        match self.dice.pick(0, 21) {
            0 | 1 => match live {
                Some(t) => ask.id = t.id,
                None => ask.id = 0,
            },
            2 => {
                let id = if self.gone.is_empty() || self.dice.percent(30) { self.dice.one_of(&[0, 1, never, 77_777]) } else { self.dice.one_of(&self.gone) };
                return self.emit(Event::Withdraw { id });
            }
            3 => match self.task(|t| t.start <= now) {
                Some(t) => return self.emit(Event::Withdraw { id: t.id }),
                None => return self.emit(Event::Withdraw { id: 0 }),
            },
            4 => {
                if self.withdraw_waiting() {
                    return;
                }
            }
            5 => return self.emit(Event::Clock { instant: now }),
            6 => return self.emit(Event::Clock { instant: now.saturating_sub(1) }),
            7 => {
                let instant = self.dice.one_of(&[END_OF_TIME + 1, never, END_OF_TIME + 7]);
                return self.emit(Event::Clock { instant });
            }
            8 => planner = self.dice.one_of(&[4, 5, 128, 255]),
            9 => ask.id = 0,
            10 => ask.w = self.dice.one_of(&[0, w + 1, w + self.board.g, 257, 65_535]),
            11 => ask.h = self.dice.one_of(&[0, h + 1, 1_025, 65_535]),
            12 => ask.e = self.dice.one_of(&[0, LONGEST + 1, never]),
            13 => ask.d = self.dice.one_of(&[END_OF_TIME + 1, never]),
            14 => ask.d = (now + ask.e - 1).min(never),
            15 => ask.d = now + ask.e,
            16 => ask.w = w.max(1),
            17 => ask.d = self.far_deadline(ask.e),
            18 => ask.d = self.too_far(ask.e),
            19 => {
                // a live id and too far
                if let Some(t) = live {
                    ask.id = t.id;
                }
                ask.d = self.too_far(ask.e);
            }
            20 => ask.w = self.off_grid(),
            _ => {
                if self.dice.percent(33) {
                    planner = 4;
                }
                if self.dice.percent(33) {
                    ask.id = 0;
                } else if let Some(t) = live {
                    ask.id = t.id;
                }
                if self.dice.percent(33) {
                    let off = self.off_grid();
                    ask.w = self.dice.one_of(&[0, w + 1, off]);
                }
                if self.dice.percent(33) {
                    ask.h = self.dice.one_of(&[0, h + 1]);
                }
                if self.dice.percent(33) {
                    ask.e = self.dice.one_of(&[0, LONGEST, LONGEST + 1]);
                }
                if self.dice.percent(50) {
                    let limit = now + ask.e + MOST_LAX;
                    ask.d = self.dice.one_of(&[0, now, END_OF_TIME, END_OF_TIME + 1, limit, limit + 1]);
                }
            }
        }
        self.emit(Event::Submit { planner, ask });
    }

    /// An event of which any field may stand at an edge.
    fn edge(&mut self, era: &Era) {
        let (w, h, now) = (self.board.w, self.board.h, self.board.now);
        let never = u32::MAX as u64;
        match self.dice.pick(0, 99) {
            0..=64 => {
                let mut ask = self.ask(era);
                let mut planner = self.planner(era);
                if self.dice.percent(25) {
                    // one step, all but one, all
                    let step = self.in_steps(1);
                    ask.w = self.dice.one_of(&[step, w.max(2 * step) - step, w.max(1), step]);
                }
                if self.dice.percent(25) {
                    ask.h = self.dice.one_of(&[1, h.max(2) - 1, h.max(1)]);
                }
                if self.dice.percent(25) {
                    ask.e = self.dice.one_of(&[1, 2, LONGEST - 1, LONGEST]);
                    let limit = now + ask.e + MOST_LAX;
                    ask.d = self.dice.one_of(&[now + ask.e, now + ask.e + 1, limit - 1, limit, limit, limit + 1, END_OF_TIME - 1, END_OF_TIME]);
                    if self.dice.percent(90) {
                        ask.d = ask.d.min(END_OF_TIME);
                    }
                }
                if self.dice.percent(10) {
                    ask.id = self.dice.one_of(&[1, never, 1 << 31]);
                }
                if self.dice.percent(30) {
                    match self.dice.pick(0, 7) {
                        0 => planner = self.dice.one_of(&[4, 5, 255]),
                        1 => ask.id = 0,
                        2 => {
                            let off = self.off_grid();
                            ask.w = self.dice.one_of(&[0, w + 1, w + self.board.g, off, off, 65_535]);
                        }
                        3 => ask.h = self.dice.one_of(&[0, h + 1, 65_535]),
                        4 => ask.e = self.dice.one_of(&[0, LONGEST + 1, never]),
                        5 => ask.d = self.dice.one_of(&[0, END_OF_TIME + 1, never]),
                        6 => ask.d = self.too_far(ask.e),
                        _ => ask.d = self.dice.one_of(&[now + ask.e - 1, now, now.saturating_sub(1)]),
                    }
                }
                self.emit(Event::Submit { planner, ask });
            }
            65..=84 => {
                if self.dice.percent(60) {
                    self.clock_to_event(20)
                } else {
                    let step = self.dice.one_of(&[0, 1, LONGEST - 1, LONGEST, LONGEST + 1]);
                    self.emit(Event::Clock { instant: (now + step).min(END_OF_TIME) });
                }
            }
            85..=89 => {
                let instant = self.dice.one_of(&[now, now.saturating_sub(1), 0, END_OF_TIME + 1, never]);
                self.emit(Event::Clock { instant });
            }
            90..=96 => {
                let live = self.task(|_| true).map_or(0, |t| t.id);
                let id = self.dice.one_of(&[0, 1, never, live, live]);
                self.emit(Event::Withdraw { id });
            }
            _ => self.odd(era),
        }
    }

    /// The grid of a board of W columns that is to be made by kind 5, or None for kind 1.
    fn grid(&mut self, profile: Profile, w: u64) -> Option<u64> {
        let dice = &mut self.dice;
        if !dice.percent(33) {
            return None;
        }
        Some(match profile {
            // steps enough for many tasks side by side
            Profile::Crowded => dice.pick(1, w / 40),
            Profile::Lax if w >= 64 => dice.pick(1, w / 40),
            Profile::Bounds => dice.one_of(&[1, 1, 2, 3, 5, 8, 15, 16, 16]),
            Profile::Paper => dice.one_of(&[1, 2, 3, 4, 4, 4, 5, 6, 7, 8, 12, 16]),
            _ => dice.one_of(&[1, 2, 3, 4, 4, 5, 6, 7, 8, 9, 10, 11, 12, 13, 14, 15, 16]),
        })
    }

    /// A board of the profile and how tasks come on it. Emits the new board.
    fn open(&mut self, profile: Profile) -> Era {
        if profile == Profile::Grid {
            return self.open_grid();
        }
        let dice = &mut self.dice;
        let planner = if dice.percent(45) { None } else { Some(dice.one_of(&[0, 0, 1, 1, 2, 3])) };
        let mut era = Era { profile, planner, pace: (0, 3), w: (1, 4), e: (1, 6), laxity: (0, 12), far: 1, odd: 6, withdraw: 4 };
        let (w, h) = match profile {
            Profile::Paper => {
                let mean = dice.pick(3, 10);
                era.pace = (1, 2 * mean - 1);
                era.far = 0;
                era.odd = 2;
                era.withdraw = 2;
                (96, 64)
            }
            Profile::Wide => {
                era.w = (1, dice.pick(8, 26));
                era.e = (dice.pick(1, 60), dice.pick(100, 400));
                era.laxity = (0, dice.pick(10, 1200));
                let mean = (1 + era.w.1) * (era.e.0 + era.e.1) / 4 / 256;
                era.pace = (0, dice.pick(mean, 2 * mean + 1));
                era.odd = 3;
                (256, dice.pick(1, 1_024))
            }
            Profile::Crowded => {
                let w = dice.one_of(&[64, 64, 96, 128, 200, 256, 256]);
                let abreast = if planner == Some(0) { 64 } else { dice.one_of(&[32, 36, 40, 52]) };
                era.w = (1, (w / abreast).max(1));
                era.e = (dice.pick(50, 200), dice.pick(300, 2_000));
                era.laxity = (0, dice.pick(50, 4_000));
                era.pace = (0, dice.pick(4, 40));
                era.far = 3;
                era.odd = 3;
                era.withdraw = 6;
                (w, dice.pick(1, 64))
            }
            Profile::Late => {
                era.w = (1, 12);
                era.far = 2;
                (dice.pick(8, 40), dice.pick(1, 8))
            }
            Profile::Lax => {
                era.far = dice.one_of(&[20, 50, 80]);
                era.odd = 8;
                era.laxity = (0, MOST_LAX);
                era.pace = (0, dice.one_of(&[3, 20_000, 200_000]));
                if dice.percent(45) {
                    // few side by side, and long: the last start within the limit decides
                    let w = dice.pick(1, 40);
                    era.w = (w.div_ceil(4), w);
                    era.e = (dice.pick(200_000, 600_000), LONGEST);
                    (w, dice.pick(1, 8))
                } else {
                    // many side by side, and slow to end: 64 are live soon
                    let w = dice.one_of(&[64, 100, 160, 256]);
                    era.w = (1, w / 40);
                    era.e = (dice.pick(1, 200_000), LONGEST);
                    era.laxity = (0, dice.one_of(&[1_000_000, 5_000_000, MOST_LAX]));
                    (w, dice.pick(1, 8))
                }
            }
            Profile::Bounds => {
                let w = if dice.percent(50) { dice.one_of(&[1, 2, 3, 255, 256]) } else { dice.pick(1, 256) };
                let h = if dice.percent(50) { dice.one_of(&[1, 2, 1_023, 1_024]) } else { dice.pick(1, 1_024) };
                era.w = (1, (w / 3).max(1));
                era.e = (1, dice.one_of(&[4, 100, LONGEST]));
                era.laxity = (0, 4 * era.e.1);
                era.pace = (0, era.e.1);
                (w, h)
            }
            _ => {
                era.w = (1, dice.one_of(&[1, 2, 2, 3, 4]));
                era.e = (1, dice.pick(2, 9));
                era.laxity = (0, dice.pick(2, 24));
                era.pace = (0, dice.pick(1, 3));
                era.withdraw = dice.one_of(&[2, 6, 12]);
                (dice.one_of(&[1, 2, 3, 4, 5, 5, 6, 6, 6]), dice.pick(1, 3))
            }
        };
        match self.grid(profile, w) {
            None => self.emit(Event::NewBoard { w, h }),
            Some(g) if profile == Profile::Tiny => {
                // steps in place of columns
                era.w = (g * era.w.0, g * era.w.1);
                self.emit(Event::GridBoard { w: g * w, h, g });
            }
            Some(g) => {
                // W and the widest are rounded down to the grid; a board narrower than a step gets one
                let down = |n: u64| (n - n % g).max(g);
                era.w.1 = down(era.w.1);
                self.emit(Event::GridBoard { w: down(w), h, g });
            }
        }
        if profile == Profile::Late {
            // close to the end of time by a little or a lot; or far from it, at any now
            let room = self.dice.one_of(&[40, 400, 5_000, 200_000, 5_000_000, 24_000_000, END_OF_TIME]);
            let room = self.dice.pick(room / 2, room);
            era.e = (1, (room / 8).clamp(2, LONGEST));
            era.laxity = (0, (3 * era.e.1).min(room));
            era.pace = (0, (era.e.1 / 3).max(1));
            if self.dice.percent(35) {
                // many of them at once, far ahead of now
                era.w = (1, 3);
                era.laxity = (0, (20 * era.e.1).min(room).min(MOST_LAX));
                era.pace = (0, (era.e.1 / 12).max(1));
            }
            self.emit(Event::Clock { instant: END_OF_TIME - room });
        }
        // the last deadline lies about the limit of laxity here, from now on or soon
        if profile == Profile::Bounds && self.dice.percent(50) || profile == Profile::Lax && self.dice.percent(65) {
            let e = self.dice.one_of(&[1, 2, 1_000, era.e.0, era.e.1, LONGEST]);
            let beside = self.dice.one_of(&[0, 0, 1, 2, 10, 1_000, LONGEST, 3 * LONGEST]);
            let room = e + MOST_LAX + beside;
            let room = if self.dice.percent(50) { room } else { self.dice.pick(1, 2 * room) };
            self.emit(Event::Clock { instant: END_OF_TIME - room });
        }
        if profile == Profile::Lax {
            if w < 64 && self.dice.percent(80) {
                self.wall(&era);
            } else if w >= 64 && self.dice.percent(50) {
                self.crowd(&era);
            }
        }
        era
    }

    /// A board of kind 5, seldom of kind 1, and how tasks come on it: the profile `grid`.
    fn open_grid(&mut self) -> Era {
        let dice = &mut self.dice;
        let (steps, g, h) = if dice.percent(20) {
            // the prototype of section 3.2 of the source: a grid of 4, and the smallest task is loaded in a 14th of the time
            // of the whole device (1.42 and 19.88 ms)
            (14, 4, 64)
        } else {
            let g = if dice.percent(75) { dice.one_of(&[2, 3, 4, 5, 7, 8, 12, 16]) } else { dice.pick(1, 16) };
            let most = if dice.percent(25) { 8 } else { 256 / g };
            let steps = if dice.percent(50) { most } else { dice.pick(1, most) };
            (steps, g, dice.pick(1, 64))
        };
        let planner = if dice.percent(45) { None } else { Some(dice.one_of(&[0, 1, 1, 2, 2, 3])) };
        let widest = g * dice.one_of(&[1, 1, 2, 3, (steps / 4).max(1)]);
        let mut era = Era { profile: Profile::Grid, planner, pace: (0, 3), w: (1, widest), e: (1, dice.pick(2, 9)), laxity: (0, dice.pick(2, 30)), far: 1, odd: 6, withdraw: 4 };
        if dice.percent(60) {
            // slow to end and booked far ahead, so that many are live however few steps there are
            era.e = (dice.pick(1, 60), dice.pick(60, 600));
            era.laxity = (dice.one_of(&[0, 0, 1_000]), dice.pick(1_000, 8_000));
            era.pace = (0, dice.pick(2, 20));
        }
        let w = g * steps;
        let event = if dice.percent(10) { Event::NewBoard { w, h } } else { Event::GridBoard { w, h, g } };
        self.emit(event);
        era
    }

    /// A new board that is refused: W or H out of range, and for kind 5 the grid too, or a W that is no multiple of it.
    fn bad_board(&mut self) {
        if self.dice.percent(50) {
            let bad = [(0, 1), (1, 0), (257, 1), (256, 1_025), (0, 0), (65_535, 65_535), (257, 1_025)];
            let (w, h) = self.dice.one_of(&bad);
            return self.emit(Event::NewBoard { w, h });
        }
        let w = self.dice.pick(1, 256);
        let g = self.dice.pick(2, 16);
        let no_multiple = if w % g == 0 { w - 1 } else { w };
        let (w, h, g) = match self.dice.pick(0, 9) {
            0 => (w, 1, 0),
            // g out of range, and W a multiple of it
            1 => (17 * self.dice.pick(1, 15), 1, 17),
            2 => (255, 1, self.dice.one_of(&[17, 51, 85, 255])),
            3 => (w, 1, self.dice.one_of(&[17, 18, 32, 255])),
            // 0 is a multiple of every grid, and no W
            4 => (0, 1, self.dice.pick(0, 17)),
            5 => self.dice.one_of(&[(0, 0, 0), (257, 1, 1), (272, 1, 16), (256, 1_025, 16), (256, 0, 16), (65_535, 65_535, 255), (65_520, 1, 16)]),
            _ => (no_multiple, self.dice.pick(1, 1_024), g),
        };
        self.emit(Event::GridBoard { w, h, g });
    }

    /// `events` events of a plain profile (those of an unsound board to begin with, now and then).
    fn play(&mut self, profile: Profile, events: u64) {
        let stop = self.left.saturating_sub(events);
        while self.left > stop {
            let bad = match profile {
                Profile::Tiny | Profile::Bounds => 8,
                Profile::Grid => 25,
                _ => 0,
            };
            if self.dice.percent(bad) {
                self.bad_board();
                let era = Era { profile, planner: None, pace: (0, 1), w: (1, 1), e: (1, 2), laxity: (0, 2), far: 0, odd: 0, withdraw: 0 };
                for _ in 0..self.dice.pick(0, 4) {
                    self.odd(&era);
                }
            }
            let era = self.open(profile);
            let length = match profile {
                Profile::Paper => self.dice.pick(1_000, 12_000),
                Profile::Wide | Profile::Crowded => self.dice.pick(500, 6_000),
                Profile::Lax => self.dice.pick(20, 400),
                Profile::Grid => self.dice.pick(20, 800),
                _ => self.dice.pick(10, 250),
            };
            let close = self.left.saturating_sub(length).max(stop);
            self.pending_clock = false;
            while self.left > close {
                self.step(&era);
                let room = END_OF_TIME - self.board.now;
                if room == 0 && self.dice.percent(30) || room < 4_000 && !matches!(profile, Profile::Late | Profile::Bounds | Profile::Lax) {
                    break;
                }
            }
        }
    }

    fn step(&mut self, era: &Era) {
        if self.dice.percent(era.odd) {
            return self.odd(era);
        }
        if self.dice.percent(era.withdraw) && self.withdraw_waiting() {
            return;
        }
        match era.profile {
            Profile::Bounds => self.edge(era),
            Profile::Crowded => {
                // at 64 mostly make room, so that planners decide on 63 live tasks more often than 9 is answered
                let live = self.board.tasks.len();
                if live == 64 && self.dice.percent(70) {
                    if self.dice.percent(30) && self.withdraw_waiting() {
                        return;
                    }
                    self.clock_to_event(1)
                } else if self.dice.percent(if live < 56 { 4 } else { 15 }) {
                    self.clock_on(era)
                } else {
                    self.submit(era)
                }
            }
            Profile::Lax => {
                // clocks are few, so that the board is booked far ahead
                let live = self.board.tasks.len();
                if live == 64 && self.dice.percent(50) || self.dice.percent(4) {
                    self.clock_to_event(2)
                } else if self.dice.percent(8) {
                    self.clock_on(era)
                } else {
                    self.submit(era)
                }
            }
            Profile::Grid => {
                // hardly a clock to a later finish than the next, as it would end many tasks
                let live = self.board.tasks.len();
                if live == 64 && self.dice.percent(80) || self.dice.percent(10) {
                    self.clock_to_event(1)
                } else if self.dice.percent(8) {
                    self.clock_on(era)
                } else {
                    self.submit(era)
                }
            }
            Profile::Paper | Profile::Wide => {
                // an arrival: the clock, then the task
                self.pending_clock = !self.pending_clock;
                if !self.pending_clock {
                    self.submit(era)
                } else if self.dice.percent(5) {
                    self.clock_to_event(0)
                } else {
                    self.clock_on(era)
                }
            }
            _ => match self.dice.pick(0, 99) {
                0..=59 => self.submit(era),
                60..=79 => self.clock_on(era),
                _ => self.clock_to_event(if era.profile == Profile::Tiny { 15 } else { 8 }),
            },
        }
    }

    /// The end of a recording that does not end well.
    fn cut(&mut self) {
        let era = Era { profile: Profile::Tiny, planner: None, pace: (0, 3), w: (1, 2), e: (1, 4), laxity: (0, 9), far: 0, odd: 0, withdraw: 0 };
        match self.dice.pick(0, 9) {
            0..=5 => {
                let mut record = Vec::new();
                let event = match self.dice.pick(1, 5) {
                    1 => Event::NewBoard { w: self.dice.pick(0, 300), h: self.dice.pick(0, 1_100) },
                    2 => Event::Submit { planner: self.dice.pick(0, 5), ask: self.ask(&era) },
                    3 => Event::Clock { instant: self.board.now + 1 },
                    5 => Event::GridBoard { w: self.dice.pick(0, 300), h: self.dice.pick(0, 1_100), g: self.dice.pick(0, 255) },
                    _ => Event::Withdraw { id: self.dice.pick(0, 99) },
                };
                event.write(&mut record);
                assert_eq!(body_length(event.kind()), Some(record.len() - 1));
                let keep = self.dice.pick(1, record.len() as u64 - 1) as usize;
                self.bytes.extend_from_slice(&record[..keep]);
            }
            6..=8 => {
                let kind = match self.dice.pick(0, 250) {
                    0 => 0,
                    n => n as u8 + 5,
                };
                self.bytes.push(kind);
                for _ in 0..self.dice.one_of(&[0, 1, 4, 40]) {
                    let byte = self.dice.pick(0, 255) as u8;
                    self.bytes.push(byte);
                }
            }
            _ => {
                for _ in 0..self.dice.pick(0, 300) {
                    let byte = if self.dice.percent(60) { self.dice.pick(0, 5) } else { self.dice.pick(0, 255) };
                    self.bytes.push(byte as u8);
                }
            }
        }
    }
}

fn main() {
    let words: Vec<String> = std::env::args().skip(1).collect();
    let usage = || -> ! {
        eprintln!("usage: generate tiny|paper|wide|crowded|late|bounds|lax|grid|cut|mixed SEED EVENTS");
        exit(2)
    };
    let [profile, seed, events] = &words[..] else { usage() };
    let (Ok(seed), Ok(events)) = (seed.parse::<u64>(), events.parse::<u64>()) else { usage() };
    let profile = match profile.as_str() {
        "cut" => Profile::Cut,
        "mixed" => Profile::Mixed,
        name => match PLAIN.iter().find(|(n, _)| *n == name) {
            Some((_, p)) => *p,
            None => usage(),
        },
    };
    let mut dice = Dice(seed.wrapping_mul(0x2545_f491_4f6c_dd1d) ^ ((profile as u64 + 1) << 56));
    let next_id = dice.one_of(&[0, 0, 1_000, u32::MAX as u64 - 1_000]);
    let mut maker = Maker { dice, board: Board::zeros(), bytes: Vec::new(), left: events, next_id, gone: Vec::new(), pending_clock: false };
    match profile {
        Profile::Cut => {
            maker.left = maker.dice.pick(0, events);
            if maker.dice.percent(20) {
                maker.left = maker.left.min(3);
            }
            if maker.left > 0 {
                let plain = maker.dice.one_of(&PLAIN).1;
                maker.play(plain, maker.left);
            }
            maker.cut();
        }
        Profile::Mixed => {
            // begins on the board of zeros now and then
            if maker.dice.percent(50) {
                let era = Era { profile: Profile::Tiny, planner: None, pace: (0, 1), w: (1, 1), e: (1, 2), laxity: (0, 2), far: 0, odd: 0, withdraw: 0 };
                for _ in 0..4 {
                    maker.odd(&era);
                }
            }
            while maker.left > 0 {
                let plain = maker.dice.one_of(&PLAIN).1;
                let events = maker.dice.pick(50, 1_500);
                maker.play(plain, events);
            }
        }
        plain => maker.play(plain, events),
    }
    maker.flush();
}
