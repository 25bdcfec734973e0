//! model.rs: the rules of document 01 and of the requests of document 02, written from these alone and meant to be
//! slow, plain and right.
//!
//! It is the body of `second.rs` (the second program that `plan` is compared with), and `generate.rs` keeps such a board
//! so that its recordings are about tasks that are live. It shares no text and no method with the Rattle code. Two methods
//! answer a submission here:
//!
//! * the sheet: all live tasks are drawn on squared paper, one row a tick and one square a column, and squares are looked
//!   at one by one. Taken where the sheet is small.
//! * the lists: sorted vectors of instants and explicit sets of columns. Taken for everything else, as the window may span
//!   10,000,000 ticks.
//!
//! `second --check` runs both wherever the sheet can be paid for and stops if they differ.

use std::collections::BTreeSet;

pub const MOST_LIVE: usize = 64;
pub const MOST_COLUMNS: u64 = 256;
pub const MOST_ROWS: u64 = 1_024;
pub const LONGEST: u64 = 1_000_000;
pub const END_OF_TIME: u64 = 2_000_000_000;
/// The largest laxity that is not refused.
pub const MOST_LAX: u64 = 10_000_000;
/// The coarsest grid: so many columns a step.
pub const COARSEST: u64 = 16;

/// What a submission is tested for, in this order; openings test those of them that speak of no planner, no id and no slot. The
/// first test that holds gives the answer. That is not the lowest number: 18 comes before 9.
const TESTS: [u64; 9] = [1, 3, 4, 5, 6, 7, 8, 18, 9];

/// A sheet of at most this many squares is drawn to answer a submission.
pub const SMALL_SHEET: u64 = 4_096;
/// A sheet of at most this many squares is drawn to check the answer of the lists.
pub const CHECK_SHEET: u64 = 60_000;

/// An event as its record has it; the reader judges no value. Numbers are kept wide, so that no sum here can wrap.
#[derive(Clone, Copy, Debug, PartialEq, Eq)]
pub enum Event {
    NewBoard { w: u64, h: u64 },
    /// Kind 5. An event of its own: with g 1 it makes the board of kind 1, but its record is another.
    GridBoard { w: u64, h: u64, g: u64 },
    Submit { planner: u64, ask: Ask },
    Clock { instant: u64 },
    Withdraw { id: u64 },
}

/// What a submission asks for.
#[derive(Clone, Copy, Debug, PartialEq, Eq)]
pub struct Ask {
    pub id: u64,
    pub w: u64,
    pub h: u64,
    pub e: u64,
    pub d: u64,
}

impl Ask {
    /// d - e - now, below 0 where the task comes too late. Both the refusal 18 and the classes of the summary read it.
    pub fn laxity(&self, now: u64) -> i64 {
        self.d as i64 - self.e as i64 - now as i64
    }
}

/// Body length of a kind; None for an unknown kind.
pub fn body_length(kind: u8) -> Option<usize> {
    match kind {
        1 => Some(2 + 2),
        2 => Some(1 + 4 + 2 + 2 + 4 + 4),
        3 => Some(4),
        4 => Some(4),
        5 => Some(2 + 2 + 1),
        _ => None,
    }
}

fn little(bytes: &[u8]) -> u64 {
    let mut n = 0;
    for (place, b) in bytes.iter().enumerate() {
        n += (*b as u64) << (8 * place);
    }
    n
}

impl Event {
    pub fn kind(&self) -> u8 {
        match self {
            Event::NewBoard { .. } => 1,
            Event::Submit { .. } => 2,
            Event::Clock { .. } => 3,
            Event::Withdraw { .. } => 4,
            Event::GridBoard { .. } => 5,
        }
    }

    /// The event of a known kind and its whole body.
    pub fn parse(kind: u8, body: &[u8]) -> Event {
        match kind {
            1 => Event::NewBoard { w: little(&body[0..2]), h: little(&body[2..4]) },
            2 => Event::Submit {
                planner: little(&body[0..1]),
                ask: Ask {
                    id: little(&body[1..5]),
                    w: little(&body[5..7]),
                    h: little(&body[7..9]),
                    e: little(&body[9..13]),
                    d: little(&body[13..17]),
                },
            },
            3 => Event::Clock { instant: little(&body[0..4]) },
            4 => Event::Withdraw { id: little(&body[0..4]) },
            5 => Event::GridBoard { w: little(&body[0..2]), h: little(&body[2..4]), g: little(&body[4..5]) },
            _ => unreachable!("parse is called for known kinds only"),
        }
    }

    /// Appends the record of the event. A field that its width cannot hold is a slip of the caller.
    pub fn write(&self, out: &mut Vec<u8>) {
        fn put(out: &mut Vec<u8>, n: u64, bytes: u32) {
            assert!(n < 1u64 << (8 * bytes), "{n} does not fit {bytes} bytes");
            out.extend_from_slice(&n.to_le_bytes()[..bytes as usize]);
        }
        out.push(self.kind());
        match *self {
            Event::NewBoard { w, h } => {
                put(out, w, 2);
                put(out, h, 2);
            }
            Event::Submit { planner, ask } => {
                put(out, planner, 1);
                put(out, ask.id, 4);
                put(out, ask.w, 2);
                put(out, ask.h, 2);
                put(out, ask.e, 4);
                put(out, ask.d, 4);
            }
            Event::Clock { instant } => put(out, instant, 4),
            Event::Withdraw { id } => put(out, id, 4),
            Event::GridBoard { w, h, g } => {
                put(out, w, 2);
                put(out, h, 2);
                put(out, g, 1);
            }
        }
    }
}

#[derive(Clone, Copy, Debug, PartialEq, Eq)]
pub struct Answer {
    pub number: u64,
    pub column: u64,
    pub start: u64,
    pub finish: u64,
}

fn just(number: u64) -> Answer {
    Answer { number, column: 0, start: 0, finish: 0 }
}

#[derive(Clone, Debug, PartialEq, Eq)]
pub struct Task {
    pub slot: usize,
    pub id: u64,
    pub w: u64,
    pub h: u64,
    pub e: u64,
    pub d: u64,
    pub column: u64,
    pub start: u64,
}

impl Task {
    /// First tick at which it holds nothing any more.
    pub fn finish(&self) -> u64 {
        self.start + self.e
    }
    fn columns(&self) -> std::ops::Range<usize> {
        self.column as usize..(self.column + self.w) as usize
    }
    fn holds(&self, tick: u64, column: u64) -> bool {
        self.start <= tick && tick < self.finish() && self.column <= column && column < self.column + self.w
    }
    /// The phase in words at an instant.
    pub fn phase(&self, t: u64) -> &'static str {
        if t < self.start {
            "waiting"
        } else if t < self.finish() {
            "running"
        } else {
            "ended"
        }
    }
}

/// The board of zeros is unsound (W 0 is out of range); every other board met in a session is sound, as no call makes a
/// sound board unsound. `fault` looks at the whole definition, and `second --check` asks it after every event.
#[derive(Clone, Debug, PartialEq, Eq)]
pub struct Board {
    pub w: u64,
    pub h: u64,
    /// Columns a step, 1 to 16; 0 on the board of zeros.
    pub g: u64,
    pub now: u64,
    /// Live tasks in the order in which they were taken.
    pub tasks: Vec<Task>,
    /// Numbers of the free slots, 1 to 64.
    pub free: BTreeSet<usize>,
}

/// Columns 1 to 256 by number; true is marked.
type Marks = [bool; 257];

/// A longest run of adjacent unmarked columns.
#[derive(Clone, Copy, Debug, PartialEq, Eq)]
pub struct Run {
    pub left: u64,
    pub width: u64,
}

fn unmarked_runs(marks: &Marks, w: u64) -> Vec<Run> {
    let mut runs: Vec<Run> = Vec::new();
    let mut open = false;
    for c in 1..=w {
        let free = !marks[c as usize];
        if free && open {
            runs.last_mut().unwrap().width += 1;
        } else if free {
            runs.push(Run { left: c, width: 1 });
        }
        open = free;
    }
    runs
}

/// W, H and grid of a board. The range of g comes before the remainder: there is none by 0.
fn device_in_range(w: u64, h: u64, g: u64) -> bool {
    let ranges = (1..=MOST_COLUMNS).contains(&w) && (1..=MOST_ROWS).contains(&h) && (1..=COARSEST).contains(&g);
    ranges && w % g == 0
}

/// Best-fit order: those wide enough, the narrowest first, the leftmost of equals first.
fn best_fit(mut runs: Vec<Run>, w: u64) -> Vec<Run> {
    runs.retain(|r| r.width >= w);
    runs.sort_by_key(|r| (r.width, r.left));
    runs
}

impl Board {
    pub fn zeros() -> Board {
        Board { w: 0, h: 0, g: 0, now: 0, tasks: Vec::new(), free: (1..=MOST_LIVE).collect() }
    }

    pub fn sound(&self) -> bool {
        self.w != 0
    }

    pub fn apply(&mut self, event: &Event) -> Answer {
        match *event {
            Event::NewBoard { w, h } => self.new_board(w, h, 1),
            Event::GridBoard { w, h, g } => self.new_board(w, h, g),
            Event::Submit { planner, ask } => self.submit(planner, &ask),
            Event::Clock { instant } => self.clock(instant),
            Event::Withdraw { id } => self.withdraw(id),
        }
    }

    fn new_board(&mut self, w: u64, h: u64, g: u64) -> Answer {
        *self = Board::zeros();
        if !device_in_range(w, h, g) {
            return just(2);
        }
        self.w = w;
        self.h = h;
        self.g = g;
        just(0)
    }

    /// Where a task may begin: c - 1 is a multiple of the grid. For sound boards and columns from 1.
    pub fn may_begin(&self, column: u64) -> bool {
        (column - 1) % self.g == 0
    }

    /// Every refusal number whose test holds, in no order. 1 hides the rest: the other tests read the board.
    fn refusals(&self, planner: Option<u64>, ask: &Ask, id_counts: bool) -> Vec<u64> {
        if !self.sound() {
            return vec![1];
        }
        let mut numbers = Vec::new();
        if ask.laxity(self.now) > MOST_LAX as i64 {
            numbers.push(18);
        }
        if self.now + ask.e > ask.d {
            numbers.push(8);
        }
        if ask.e < 1 || ask.e > LONGEST || ask.d > END_OF_TIME {
            numbers.push(6);
        }
        if ask.w < 1 || ask.w > self.w || ask.w % self.g != 0 || ask.h < 1 || ask.h > self.h {
            numbers.push(5);
        }
        if id_counts {
            if self.tasks.len() >= MOST_LIVE {
                numbers.push(9);
            }
            if self.tasks.iter().any(|t| t.id == ask.id) {
                numbers.push(7);
            }
            if ask.id == 0 {
                numbers.push(4);
            }
        }
        if let Some(p) = planner {
            if p > 3 {
                numbers.push(3);
            }
        }
        numbers
    }

    /// The refusal that is the answer: of all whose test holds, the one that is tested first.
    fn refusal(&self, planner: Option<u64>, ask: &Ask, id_counts: bool) -> Option<u64> {
        let holds = self.refusals(planner, ask, id_counts);
        let first = TESTS.into_iter().find(|number| holds.contains(number));
        assert_eq!(first.is_none(), holds.is_empty(), "each refusal has its place among the tests");
        first
    }

    fn submit(&mut self, planner: u64, ask: &Ask) -> Answer {
        if let Some(number) = self.refusal(Some(planner), ask, true) {
            return just(number);
        }
        match self.place(planner, ask) {
            None => just(10),
            Some((column, start)) => {
                let slot = self.free.pop_first().expect("fewer than 64 live, so a slot is free");
                self.tasks.push(Task { slot, id: ask.id, w: ask.w, h: ask.h, e: ask.e, d: ask.d, column, start });
                Answer { number: 0, column, start, finish: start + ask.e }
            }
        }
    }

    fn clock(&mut self, instant: u64) -> Answer {
        if !self.sound() {
            return just(1);
        }
        if instant < self.now {
            return just(11);
        }
        if instant > END_OF_TIME {
            return just(12);
        }
        self.now = instant;
        let (ended, live): (Vec<Task>, Vec<Task>) = self.tasks.drain(..).partition(|t| t.finish() <= instant);
        self.free.extend(ended.iter().map(|t| t.slot));
        self.tasks = live;
        just(0)
    }

    fn withdraw(&mut self, id: u64) -> Answer {
        if !self.sound() {
            return just(1);
        }
        match self.tasks.iter().position(|t| t.id == id) {
            None => just(13),
            Some(i) if self.tasks[i].start <= self.now => just(14),
            Some(i) => {
                let gone = self.tasks.remove(i);
                self.free.insert(gone.slot);
                just(0)
            }
        }
    }

    // ---- the planners ------------------------------------------------------------------------------------------------

    /// Column and start that the planner finds for a submission that is not refused.
    pub fn place(&self, planner: u64, ask: &Ask) -> Option<(u64, u64)> {
        if self.sheet_squares(ask) <= SMALL_SHEET {
            self.place_by_sheet(planner, ask)
        } else {
            self.place_by_lists(planner, ask)
        }
    }

    /// now, then each finish of a live task (all are after now), rising, up to d - e.
    fn instants(&self, ask: &Ask) -> Vec<u64> {
        let last = ask.d - ask.e;
        let mut at: Vec<u64> = self.tasks.iter().map(|t| t.finish()).filter(|f| *f <= last).collect();
        at.push(self.now);
        at.sort_unstable();
        at.dedup();
        at
    }

    fn marked(&self, which: impl Fn(&Task) -> bool) -> Marks {
        let mut marks = [false; 257];
        for t in self.tasks.iter().filter(|t| which(t)) {
            marks[t.columns()].fill(true);
        }
        marks
    }

    /// The unmarked runs whose left edge a published planner may take, in best-fit order. On a sound board the grid takes none
    /// away: live tasks begin and end at steps, so the runs between them do too.
    fn candidates(&self, marks: &Marks, w: u64) -> Vec<Run> {
        let mut runs = best_fit(unmarked_runs(marks, self.w), w);
        runs.retain(|r| self.may_begin(r.left));
        runs
    }

    /// What Reference does at an instant t: free intervals at t in best-fit order, the first left edge on the grid that meets
    /// no waiting task from t up to t + e.
    fn reference_at(&self, ask: &Ask, t: u64) -> Option<(u64, u64)> {
        let held = self.marked(|k| k.start <= t && t < k.finish());
        for run in self.candidates(&held, ask.w) {
            let meets = |k: &Task| {
                let apart_in_space = run.left + ask.w <= k.column || k.column + k.w <= run.left;
                let apart_in_time = t + ask.e <= k.start || k.finish() <= t;
                !apart_in_space && !apart_in_time
            };
            if !self.tasks.iter().any(|k| k.start > self.now && meets(k)) {
                return Some((run.left, t));
            }
        }
        None
    }

    /// The planners over sorted instants and sets of columns.
    pub fn place_by_lists(&self, planner: u64, ask: &Ask) -> Option<(u64, u64)> {
        match planner {
            0 => self.reference_at(ask, self.now),
            // Horizon. A column is released by t exactly if no live task that finishes after t stands on it, so no row of
            // releases is needed. Visiting every finish instead of the columns' last ones changes nothing: at a finish
            // that is no column's release, the released columns are those of the instant visited before, which had no
            // run wide enough.
            1 => self.instants(ask).into_iter().find_map(|t| {
                let unreleased = self.marked(|k| k.finish() > t);
                self.candidates(&unreleased, ask.w).first().map(|run| (run.left, t))
            }),
            2 => self.instants(ask).into_iter().find_map(|t| self.reference_at(ask, t)),
            // Full. Let (s, c) be an opening with s after now and the earliest start of all. Then (s - 1, c) is none,
            // though within the window and on the grid: some live task on those columns holds a tick from s - 1 up to
            // s - 1 + e, but none from s up to s + e; so it holds s - 1 and not s, and s is its finish. Hence now and the
            // finishes are all the starts to try. At each, a column is in the way if a live task stands on it at any tick
            // from s up to s + e; the lowest column is the first on the grid, of all runs, that has w columns of its run
            // from there on.
            3 => self.instants(ask).into_iter().find_map(|s| {
                let in_the_way = self.marked(|k| k.start < s + ask.e && s < k.finish());
                let runs = unmarked_runs(&in_the_way, self.w);
                let mut columns = runs.iter().flat_map(|run| run.left..(run.left + run.width + 1).saturating_sub(ask.w));
                columns.find(|c| self.may_begin(*c)).map(|c| (c, s))
            }),
            _ => unreachable!("planner was tested"),
        }
    }

    // ---- the sheet ---------------------------------------------------------------------------------------------------

    fn sheet_end(&self, ask: &Ask) -> u64 {
        self.tasks.iter().map(|t| t.finish()).max().unwrap_or(0).max(ask.d)
    }

    pub fn sheet_squares(&self, ask: &Ask) -> u64 {
        (self.sheet_end(ask) - self.now) * self.w
    }

    /// The columns at which a step of the grid begins, counted off from the first; the sheet's own way to say `may_begin`.
    fn steps(&self) -> Vec<u64> {
        (1..=self.w).step_by(self.g as usize).collect()
    }

    /// The planners square by square. The sheet goes from now to the deadline and at least to the last finish.
    pub fn place_by_sheet(&self, planner: u64, ask: &Ask) -> Option<(u64, u64)> {
        let sheet = Sheet::draw(self, self.sheet_end(ask));
        let last = ask.d - ask.e;
        let steps = self.steps();
        let ordered = |free: Vec<u64>| best_fit(adjacent(&free), ask.w).into_iter().filter(|run| steps.contains(&run.left));
        // At t, among the columns that are free in row t. A square held by a running task blocks here too; 01 names the
        // waiting ones only. It is the same: a running task started by now, so if it holds a square at or after t, it
        // holds that column in row t, and the run would not be free.
        let at = |t: u64| {
            let free: Vec<u64> = (1..=self.w).filter(|c| sheet.free(t, *c)).collect();
            ordered(free).find(|run| sheet.all_free(t, ask.e, run.left, ask.w)).map(|run| (run.left, t))
        };
        match planner {
            0 => at(self.now),
            // every tick, not only release times: in between no column is released, so a first tick with a run wide
            // enough is now or a release
            1 => {
                let release = |c: u64| (self.now..sheet.end).rev().find(|t| !sheet.free(*t, c)).map_or(self.now, |t| t + 1);
                let releases: Vec<u64> = (1..=self.w).map(release).collect();
                (self.now..=last).find_map(|t| {
                    let free: Vec<u64> = (1..=self.w).filter(|c| releases[*c as usize - 1] <= t).collect();
                    ordered(free).next().map(|run| (run.left, t))
                })
            }
            // now, and each tick at which the owner of some square of the row before is gone
            2 => (self.now..=last).filter(|t| *t == self.now || sheet.someone_leaves(*t)).find_map(at),
            3 => (self.now..=last).find_map(|s| {
                let mut fitting = steps.iter().filter(|c| **c + ask.w - 1 <= self.w);
                fitting.find(|c| sheet.all_free(s, ask.e, **c, ask.w)).map(|c| (*c, s))
            }),
            _ => unreachable!("planner was tested"),
        }
    }

    // ---- questions about the board -----------------------------------------------------------------------------------

    /// The later of now and the last finish of any live task on the column.
    pub fn release(&self, column: u64) -> u64 {
        self.tasks
            .iter()
            .filter(|t| t.columns().contains(&(column as usize)))
            .map(|t| t.finish())
            .fold(self.now, u64::max)
    }

    /// First column, last column, release, by release and then column.
    pub fn horizon(&self) -> Vec<(u64, u64, u64)> {
        let mut rows: Vec<(u64, u64, u64)> = Vec::new();
        for c in 1..=self.w {
            let r = self.release(c);
            match rows.last_mut() {
                Some((_, last, release)) if *release == r => *last = c,
                _ => rows.push((c, c, r)),
            }
        }
        rows.sort_by_key(|(first, _, release)| (*release, *first));
        rows
    }

    pub fn busy(&self, t: u64) -> Result<u64, u64> {
        if !self.sound() {
            return Err(1);
        }
        if t < self.now {
            return Err(11);
        }
        if t > END_OF_TIME {
            return Err(12);
        }
        Ok((1..=self.w).filter(|c| self.tasks.iter().any(|k| k.holds(t, *c))).count() as u64)
    }

    /// For a column: the starts from now to d - e at which the task may start there, as ranges, rising and apart. What is
    /// left when each task on those columns has taken away the starts from its own start - e + 1 to its finish - 1.
    fn open_starts(&self, ask: &Ask, column: u64) -> Vec<(u64, u64)> {
        let last = ask.d - ask.e;
        let mut taken: Vec<(u64, u64)> = self
            .tasks
            .iter()
            .filter(|k| (column..column + ask.w).any(|c| k.columns().contains(&(c as usize))))
            .map(|k| ((k.start + 1).saturating_sub(ask.e), k.finish() - 1))
            .collect();
        taken.sort_unstable();
        let mut open = Vec::new();
        let mut from = self.now;
        for (first, to) in taken {
            if from < first && from <= last {
                open.push((from, last.min(first - 1)));
            }
            from = from.max(to + 1);
        }
        if from <= last {
            open.push((from, last));
        }
        open
    }

    /// The openings strictly after the pair, in order, at most `most` of them, and whether a further one remains. The pair may
    /// lie off the grid. Only starts with an opening are visited (and the pair's own), never a blocked tick.
    pub fn openings(&self, ask: &Ask, after: (u64, u64), most: usize) -> Result<(Vec<(u64, u64)>, bool), u64> {
        if let Some(number) = self.refusal(None, ask, false) {
            return Err(number);
        }
        let places = (1..=self.w + 1 - ask.w).filter(|c| self.may_begin(*c));
        let columns: Vec<(u64, Vec<(u64, u64)>)> = places.map(|c| (c, self.open_starts(ask, c))).collect();
        let mut found = Vec::new();
        let mut earliest = self.now.max(after.0);
        loop {
            // the next start from `earliest` on that is open in some column
            let next = columns
                .iter()
                .filter_map(|(_, open)| open.iter().find(|(_, to)| *to >= earliest).map(|(from, _)| *from.max(&earliest)))
                .min();
            let Some(s) = next else { return Ok((found, false)) };
            for (c, open) in &columns {
                if (s, *c) > after && open.iter().any(|(from, to)| *from <= s && s <= *to) {
                    if found.len() == most {
                        return Ok((found, true));
                    }
                    found.push((s, *c));
                }
            }
            earliest = s + 1;
        }
    }

    /// The openings by looking at every start, every step, every square: for small windows.
    pub fn openings_by_sheet(&self, ask: &Ask) -> Vec<(u64, u64)> {
        let sheet = Sheet::draw(self, self.sheet_end(ask));
        let mut found = Vec::new();
        for s in self.now..=ask.d - ask.e {
            for c in self.steps() {
                if c + ask.w - 1 <= self.w && sheet.all_free(s, ask.e, c, ask.w) {
                    found.push((s, c));
                }
            }
        }
        found
    }

    // ---- checks ------------------------------------------------------------------------------------------------------

    /// What makes the board unsound, by the whole definition. A live task's laxity is no part of it.
    pub fn fault(&self) -> Option<String> {
        if !device_in_range(self.w, self.h, self.g) || self.now > END_OF_TIME {
            return Some(format!("W {} H {} grid {} now {} out of range", self.w, self.h, self.g, self.now));
        }
        if self.tasks.len() > MOST_LIVE {
            return Some("more than 64 live".into());
        }
        for k in &self.tasks {
            let numbers = k.id >= 1
                && k.id <= u32::MAX as u64
                && (1..=self.w).contains(&k.w)
                && (1..=self.h).contains(&k.h)
                && (1..=LONGEST).contains(&k.e)
                && k.d <= END_OF_TIME
                && k.column >= 1
                && k.column + k.w - 1 <= self.w;
            if !numbers {
                return Some(format!("out of range: {k:?}"));
            }
            if k.w % self.g != 0 || !self.may_begin(k.column) {
                return Some(format!("off the grid of {}: {k:?}", self.g));
            }
            if k.finish() > k.d || k.finish() <= self.now {
                return Some(format!("ends after its deadline or has ended: {k:?} at {}", self.now));
            }
            if self.free.contains(&k.slot) || !(1..=MOST_LIVE).contains(&k.slot) {
                return Some(format!("slot: {k:?}"));
            }
            for o in &self.tasks {
                if o == k {
                    continue;
                }
                if o.id == k.id || o.slot == k.slot {
                    return Some(format!("same id or slot: {k:?} {o:?}"));
                }
                let columns = k.columns().any(|c| o.columns().contains(&c));
                let ticks = k.start.max(o.start) < k.finish().min(o.finish());
                if columns && ticks {
                    return Some(format!("share a column at a tick: {k:?} {o:?}"));
                }
            }
        }
        if self.free.len() + self.tasks.len() != MOST_LIVE {
            return Some("slots lost".into());
        }
        None
    }

    /// Compares the methods on a submission that is to come; says what differs.
    pub fn methods_differ(&self, ask: &Ask) -> Option<String> {
        if !self.refusals(None, ask, true).is_empty() {
            return None;
        }
        let small = self.sheet_squares(ask) <= CHECK_SHEET;
        let first = self.openings(ask, (0, 0), 1).unwrap().0.first().map(|(s, c)| (*c, *s));
        for planner in 0..=3 {
            let lists = self.place_by_lists(planner, ask);
            if small {
                let sheet = self.place_by_sheet(planner, ask);
                if lists != sheet {
                    return Some(format!("planner {planner}: lists {lists:?}, sheet {sheet:?}, {ask:?}, {self:?}"));
                }
            }
            if planner == 3 && lists != first {
                return Some(format!("Full {lists:?}, first opening {first:?}, {ask:?}, {self:?}"));
            }
            if lists.is_some() && first.is_none() {
                return Some(format!("planner {planner} finds {lists:?} and there is no opening"));
            }
        }
        if small {
            if let Some(difference) = self.lookups_differ(self.sheet_end(ask)) {
                return Some(difference);
            }
            let slow = self.openings_by_sheet(ask);
            let (quick, more) = self.openings(ask, (0, 0), usize::MAX).unwrap();
            if slow != quick || more {
                return Some(format!("openings: lists {quick:?}, sheet {slow:?}, {ask:?}, {self:?}"));
            }
            if slow.len() < 60 {
                for (i, (s, c)) in slow.iter().enumerate() {
                    // the pair itself, and the last column of its step, which lies off the grid: the same openings follow
                    for pair in [(*s, *c), (*s, c + self.g - 1)] {
                        let (rest, more) = self.openings(ask, pair, 3).unwrap();
                        let upto = slow.len().min(i + 4);
                        if rest != slow[i + 1..upto] || more != (upto < slow.len()) {
                            return Some(format!("openings after {pair:?}: {rest:?} {more}, of {slow:?}"));
                        }
                    }
                }
            }
        }
        None
    }

    /// Compares busy columns and horizon list with what the sheet up to `end` shows; says what differs.
    fn lookups_differ(&self, end: u64) -> Option<String> {
        let sheet = Sheet::draw(self, end);
        for t in self.now..end + 2 {
            let drawn = (1..=self.w).filter(|c| !sheet.free(t, *c)).count() as u64;
            let want = if t > END_OF_TIME { Err(12) } else { Ok(drawn) };
            if self.busy(t) != want {
                return Some(format!("busy at {t}: {:?}, sheet {want:?}, {self:?}", self.busy(t)));
            }
        }
        // all columns by release and column, then neighbours of equal release put together
        let mut columns: Vec<(u64, u64)> = Vec::new();
        for c in 1..=self.w {
            let held = (self.now..end).filter(|t| !sheet.free(*t, c)).max();
            columns.push((held.map_or(self.now, |t| t + 1), c));
        }
        columns.sort_unstable();
        let mut rows: Vec<(u64, u64, u64)> = Vec::new();
        for (release, c) in columns {
            match rows.last_mut() {
                Some(row) if row.2 == release && row.1 + 1 == c => row.1 = c,
                _ => rows.push((c, c, release)),
            }
        }
        if rows != self.horizon() {
            return Some(format!("horizon: {:?}, sheet {rows:?}, {self:?}", self.horizon()));
        }
        None
    }

    /// How a placement tells right methods from slips; for the statistics only.
    pub fn telling(&self, planner: u64, ask: &Ask) -> Telling {
        let mut told = Telling::default();
        if !self.refusals(Some(planner), ask, true).is_empty() {
            return told;
        }
        let all: Vec<Option<(u64, u64)>> = (0..=3).map(|p| self.place_by_lists(p, ask)).collect();
        told.horizon_stuffing = (all[1] != all[2]) as u64;
        told.stuffing_full = (all[2] != all[3]) as u64;
        told.only_horizon = (all[1].is_some() && all[2].is_none()) as u64;
        told.only_stuffing = (all[2].is_some() && all[1].is_none()) as u64;
        let Some((column, start)) = all[planner as usize] else { return told };
        told.later_start = (start > self.now) as u64;
        let held = if planner == 1 {
            self.marked(|k| k.finish() > start)
        } else {
            self.marked(|k| k.start <= start && start < k.finish())
        };
        if planner == 3 {
            told.inside_run = unmarked_runs(&held, self.w).iter().all(|r| r.left != column) as u64;
            return told;
        }
        let order = self.candidates(&held, ask.w);
        let at = order.iter().position(|r| r.left == column).unwrap();
        told.tie = order.iter().any(|r| r.left != column && r.width == order[at].width) as u64;
        told.not_leftmost = order.iter().any(|r| r.left < column) as u64;
        told.not_first_tried = (at > 0) as u64;
        told
    }
}

#[derive(Default, Clone, Copy)]
pub struct Telling {
    /// another run of the same width stands beside the one taken
    pub tie: u64,
    /// a run wide enough stands further left than the one taken (best fit is not first fit)
    pub not_leftmost: u64,
    /// the first in best-fit order met a waiting task, a later one was taken
    pub not_first_tried: u64,
    /// Full's column is no left edge of a free interval at its start
    pub inside_run: u64,
    /// placed, and to start later than now
    pub later_start: u64,
    pub horizon_stuffing: u64,
    pub stuffing_full: u64,
    pub only_horizon: u64,
    pub only_stuffing: u64,
}

/// Squared paper: a row a tick from now on, a square a column; a square has the number of its owner (1 is the first task
/// of the board's vector), 0 is free.
struct Sheet {
    now: u64,
    end: u64,
    w: u64,
    squares: Vec<u8>,
}

impl Sheet {
    fn draw(board: &Board, end: u64) -> Sheet {
        let rows = (end - board.now) as usize;
        let mut sheet = Sheet { now: board.now, end, w: board.w, squares: vec![0; rows * board.w as usize] };
        for (i, k) in board.tasks.iter().enumerate() {
            for t in k.start.max(board.now)..k.finish() {
                for c in k.column..k.column + k.w {
                    let square = sheet.index(t, c);
                    assert_eq!(sheet.squares[square], 0, "two tasks on one square");
                    sheet.squares[square] = i as u8 + 1;
                }
            }
        }
        sheet
    }

    fn index(&self, t: u64, c: u64) -> usize {
        ((t - self.now) * self.w + c - 1) as usize
    }

    fn owner(&self, t: u64, c: u64) -> u8 {
        if t >= self.end {
            0
        } else {
            self.squares[self.index(t, c)]
        }
    }

    fn free(&self, t: u64, c: u64) -> bool {
        self.owner(t, c) == 0
    }

    fn all_free(&self, t: u64, e: u64, c: u64, w: u64) -> bool {
        (t..t + e).all(|tick| (c..c + w).all(|column| self.free(tick, column)))
    }

    /// Some task has its last tick right before t. Columns are held without interruption, so the owner is gone for good.
    fn someone_leaves(&self, t: u64) -> bool {
        (1..=self.w).any(|c| {
            let before = self.owner(t - 1, c);
            before != 0 && self.owner(t, c) != before
        })
    }
}

/// Longest runs of adjacent numbers in a rising list of columns.
fn adjacent(columns: &[u64]) -> Vec<Run> {
    let mut runs: Vec<Run> = Vec::new();
    for c in columns {
        match runs.last_mut() {
            Some(r) if r.left + r.width == *c => r.width += 1,
            _ => runs.push(Run { left: *c, width: 1 }),
        }
    }
    runs
}
