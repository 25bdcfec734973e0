//! baseline_slots: the job of `plan` as a plain, good Rust program, to time `plan` against (`time.sh`). A `&mut` board changed in
//! place, no test of its soundness, no allocation after the start, input and output in blocks of 64 KiB, and the plain
//! methods: a row of columns, one pass over it, the next finish by one pass over the 64 slots. No columns in words.
//! It prints what `second` prints; `tests/compare/compare.sh` compares it like any other `plan`.
//! Build: `rustc -C opt-level=3 --edition 2021 tests/time/baseline_slots.rs -o baseline_slots` (std only).

use std::io::{self, Read, Write};

const BLOCK: usize = 1 << 16;
const MOST_EVENTS: u64 = 1_000_000_000;

#[derive(Clone, Copy)]
struct Job {
    id: u32,
    e: u32,
    d: u32,
    w: u16,
    h: u16,
}

#[derive(Clone, Copy)]
struct Live {
    id: u32,
    start: u32,
    finish: u32,
    /// first column, from 0, and the first column past
    left: u16,
    right: u16,
}

type Place = Option<(u16, u32)>;

/// W is 0 until a board is made.
struct Device {
    slots: [Option<Live>; 64],
    w: u16,
    h: u16,
    /// the columns of a step
    g: u16,
    now: u32,
}

/// Longest runs of free columns, from the left: calls `f` with left edge (from 0) and width.
#[inline]
fn runs(taken: &[bool], mut f: impl FnMut(u16, u16)) {
    let mut from = 0;
    for (c, t) in taken.iter().enumerate() {
        if *t {
            if from < c {
                f(from as u16, (c - from) as u16);
            }
            from = c + 1;
        }
    }
    if from < taken.len() {
        f(from as u16, (taken.len() - from) as u16);
    }
}

impl Device {
    fn empty() -> Device {
        Device { slots: [None; 64], w: 0, h: 0, g: 0, now: 0 }
    }

    fn live(&self) -> impl Iterator<Item = &Live> {
        self.slots.iter().flatten()
    }

    fn create(&mut self, w: u16, h: u16, g: u8) -> u8 {
        *self = Device::empty();
        if w == 0 || w > 256 || h == 0 || h > 1_024 || g == 0 || g > 16 || w % g as u16 != 0 {
            return 2;
        }
        self.w = w;
        self.h = h;
        self.g = g as u16;
        0
    }

    fn clock(&mut self, instant: u32) -> u8 {
        if self.w == 0 {
            return 1;
        }
        if instant < self.now {
            return 11;
        }
        if instant > 2_000_000_000 {
            return 12;
        }
        self.now = instant;
        for slot in self.slots.iter_mut() {
            if slot.is_some_and(|k| k.finish <= instant) {
                *slot = None;
            }
        }
        0
    }

    fn withdraw(&mut self, id: u32) -> u8 {
        if self.w == 0 {
            return 1;
        }
        let now = self.now;
        for slot in self.slots.iter_mut() {
            if let Some(k) = slot {
                if k.id == id {
                    if k.start <= now {
                        return 14;
                    }
                    *slot = None;
                    return 0;
                }
            }
        }
        13
    }

    fn submit(&mut self, planner: u8, job: &Job) -> Result<(u16, u32), u8> {
        if self.w == 0 {
            return Err(1);
        }
        if planner > 3 {
            return Err(3);
        }
        if job.id == 0 {
            return Err(4);
        }
        if job.w == 0 || job.w > self.w || job.h == 0 || job.h > self.h || job.w % self.g != 0 {
            return Err(5);
        }
        if job.e == 0 || job.e > 1_000_000 || job.d > 2_000_000_000 {
            return Err(6);
        }
        let mut free = None;
        for (i, slot) in self.slots.iter().enumerate() {
            match slot {
                Some(k) if k.id == job.id => return Err(7),
                Some(_) => {}
                None => free = free.or(Some(i)),
            }
        }
        if job.d < self.now + job.e {
            return Err(8);
        }
        if self.now + job.e + 10_000_000 < job.d {
            return Err(18);
        }
        let Some(slot) = free else { return Err(9) };
        let place = match planner {
            0 => self.reference(self.now, job),
            1 => self.horizon(job),
            2 => self.stuffing(job),
            _ => self.full(job),
        };
        let Some((left, start)) = place else { return Err(10) };
        self.slots[slot] = Some(Live { id: job.id, start, finish: start + job.e, left, right: left + job.w });
        Ok((left + 1, start))
    }

    /// The columns of the live tasks for which `which` holds.
    #[inline]
    fn taken(&self, which: impl Fn(&Live) -> bool) -> [bool; 256] {
        let mut row = [false; 256];
        for k in self.live() {
            if which(k) {
                row[k.left as usize..k.right as usize].fill(true);
            }
        }
        row
    }

    /// The least finish after t that is not after `last`.
    fn next_finish(&self, t: u32, last: u32) -> Option<u32> {
        self.live().map(|k| k.finish).filter(|f| *f > t && *f <= last).min()
    }

    fn clear(&self, left: u16, t: u32, job: &Job) -> bool {
        let (right, finish) = (left + job.w, t + job.e);
        !self.live().any(|k| k.start < finish && t < k.finish && k.left < right && left < k.right)
    }

    /// The narrowest run of free columns at t whose left edge meets no task, the leftmost of equals.
    fn reference(&self, t: u32, job: &Job) -> Place {
        let row = self.taken(|k| k.start <= t && t < k.finish);
        let mut best = None;
        let mut narrowest = u16::MAX;
        runs(&row[..self.w as usize], |left, width| {
            if width >= job.w && width < narrowest && self.clear(left, t, job) {
                narrowest = width;
                best = Some((left, t));
            }
        });
        best
    }

    fn stuffing(&self, job: &Job) -> Place {
        let last = job.d - job.e;
        let mut t = self.now;
        loop {
            let place = self.reference(t, job);
            if place.is_some() {
                return place;
            }
            t = self.next_finish(t, last)?;
        }
    }

    fn horizon(&self, job: &Job) -> Place {
        let last = job.d - job.e;
        let mut releases = [self.now; 256];
        for k in self.live() {
            for r in &mut releases[k.left as usize..k.right as usize] {
                *r = (*r).max(k.finish);
            }
        }
        let releases = &releases[..self.w as usize];
        let mut t = self.now;
        loop {
            let mut row = [false; 256];
            let mut next = u32::MAX;
            for (taken, r) in row.iter_mut().zip(releases) {
                *taken = *r > t;
                if *r > t {
                    next = next.min(*r);
                }
            }
            let mut best = None;
            let mut narrowest = u16::MAX;
            runs(&row[..self.w as usize], |left, width| {
                if width >= job.w && width < narrowest {
                    narrowest = width;
                    best = Some((left, t));
                }
            });
            if best.is_some() {
                return best;
            }
            if next > last {
                return None;
            }
            t = next;
        }
    }

    fn full(&self, job: &Job) -> Place {
        let last = job.d - job.e;
        let mut s = self.now;
        loop {
            let finish = s + job.e;
            let row = self.taken(|k| k.start < finish && s < k.finish);
            let mut free = 0;
            for (c, taken) in row[..self.w as usize].iter().enumerate() {
                free = if *taken { 0 } else { free + 1 };
                if free == job.w {
                    return Some((c as u16 + 1 - job.w, s));
                }
            }
            s = self.next_finish(s, last)?;
        }
    }
}

struct Printer {
    out: io::StdoutLock<'static>,
    bytes: Vec<u8>,
}

impl Printer {
    fn number(&mut self, mut n: u64, then: u8) {
        let mut digits = [0u8; 20];
        let mut i = 20;
        loop {
            i -= 1;
            digits[i] = b'0' + (n % 10) as u8;
            n /= 10;
            if n == 0 {
                break;
            }
        }
        self.bytes.extend_from_slice(&digits[i..]);
        self.bytes.push(then);
    }

    fn line(&mut self, event: u64, kind: u8, answer: u8, column: u16, start: u32, finish: u32) -> io::Result<()> {
        self.number(event, b' ');
        self.number(kind as u64, b' ');
        self.number(answer as u64, b' ');
        self.number(column as u64, b' ');
        self.number(start as u64, b' ');
        self.number(finish as u64, b'\n');
        if self.bytes.len() > BLOCK - 64 {
            self.flush()?;
        }
        Ok(())
    }

    fn flush(&mut self) -> io::Result<()> {
        self.out.write_all(&self.bytes)?;
        self.bytes.clear();
        self.out.flush()
    }
}

fn u16_at(b: &[u8], at: usize) -> u16 {
    u16::from_le_bytes([b[at], b[at + 1]])
}

fn u32_at(b: &[u8], at: usize) -> u32 {
    u32::from_le_bytes([b[at], b[at + 1], b[at + 2], b[at + 3]])
}

fn main() -> io::Result<()> {
    let mut input = io::stdin().lock();
    let mut block = vec![0u8; BLOCK];
    let (mut at, mut filled, mut ended) = (0, 0, false);
    let mut printer = Printer { out: io::stdout().lock(), bytes: Vec::with_capacity(BLOCK) };
    printer.bytes.extend_from_slice(b"event kind answer column start finish\n");
    let mut device = Device::empty();
    let mut event = 0;
    while event < MOST_EVENTS {
        // the longest record has 18 bytes
        while filled - at < 18 && !ended {
            block.copy_within(at..filled, 0);
            filled -= at;
            at = 0;
            match input.read(&mut block[filled..]) {
                Ok(n) => {
                    filled += n;
                    ended = n == 0;
                }
                Err(e) if e.kind() == io::ErrorKind::Interrupted => {}
                Err(e) => return Err(e),
            }
        }
        if filled == at {
            break;
        }
        event += 1;
        let record = &block[at..filled];
        let kind = record[0];
        let length = match kind {
            1 => 5,
            2 => 18,
            3 | 4 => 5,
            5 => 6,
            _ => {
                printer.line(event, kind, 16, 0, 0, 0)?;
                break;
            }
        };
        if record.len() < length {
            printer.line(event, kind, 15, 0, 0, 0)?;
            break;
        }
        let record = &record[..length];
        let answer = match kind {
            1 => device.create(u16_at(record, 1), u16_at(record, 3), 1),
            5 => device.create(u16_at(record, 1), u16_at(record, 3), record[5]),
            2 => {
                let job = Job { id: u32_at(record, 2), w: u16_at(record, 6), h: u16_at(record, 8), e: u32_at(record, 10), d: u32_at(record, 14) };
                match device.submit(record[1], &job) {
                    Ok((column, start)) => {
                        printer.line(event, kind, 0, column, start, start + job.e)?;
                        at += length;
                        continue;
                    }
                    Err(number) => number,
                }
            }
            3 => device.clock(u32_at(record, 1)),
            _ => device.withdraw(u32_at(record, 1)),
        };
        printer.line(event, kind, answer, 0, 0, 0)?;
        at += length;
    }
    printer.flush()
}
