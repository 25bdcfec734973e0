// The planner of document 01 as one would first write it in Rust: a board changed in place, no test of its soundness.
// Usage: baseline_calls PLANNER WORKLOAD ROUNDS [stats]. It prints the checksum of all answers; workload 4 by Full is the method
// "every column at every visited time" on a board where no place exists. For workloads 5 to 7, lists of openings, PLANNER is
// the number of the board.
use std::env;

#[derive(Clone, Copy)]
struct Job {
    id: u32,
    exec: u32,
    deadline: u32,
    width: u16,
    height: u16,
}

#[derive(Clone, Copy)]
struct Live {
    job: Job,
    column: u16,
    start: u32,
    waiting: bool,
}

impl Live {
    fn finish(&self) -> u32 {
        self.start + self.job.exec
    }
    fn end(&self) -> u16 {
        self.column + self.job.width
    }
}

#[derive(Clone, Copy)]
enum Reply {
    Done(u16, u32, u32),
    No(u8),
}

struct Device {
    slots: [Option<Live>; 64],
    width: u16,
    height: u16,
    step: usize,
    now: u32,
}

impl Device {
    fn new(width: u16, height: u16) -> Device {
        Device { slots: [None; 64], width, height, step: 1, now: 0 }
    }

    fn live(&self) -> impl Iterator<Item = &Live> {
        self.slots.iter().flatten()
    }

    fn advance(&mut self, now: u32) {
        self.now = now;
        for slot in self.slots.iter_mut() {
            if let Some(k) = slot {
                if k.finish() <= now {
                    *slot = None;
                } else {
                    k.waiting = now < k.start;
                }
            }
        }
    }

    fn submit(&mut self, planner: u8, job: Job) -> Reply {
        if planner > 3 {
            return Reply::No(3);
        }
        if job.id == 0 {
            return Reply::No(4);
        }
        if job.width == 0 || job.width > self.width || job.height == 0 || job.height > self.height {
            return Reply::No(5);
        }
        if job.exec == 0 || job.exec > 1_000_000 || job.deadline > 2_000_000_000 {
            return Reply::No(6);
        }
        if self.live().any(|k| k.job.id == job.id) {
            return Reply::No(7);
        }
        if job.deadline < self.now + job.exec {
            return Reply::No(8);
        }
        if self.now + job.exec + 10_000_000 < job.deadline {
            return Reply::No(18);
        }
        let Some(slot) = self.slots.iter().position(|s| s.is_none()) else {
            return Reply::No(9);
        };
        let place = match planner {
            0 => self.try_at(self.now, &job).map(|c| (c, self.now)),
            1 => self.horizon(&job),
            2 => self.stuffing(&job),
            _ => self.full(&job),
        };
        let Some((column, start)) = place else {
            return Reply::No(10);
        };
        let waiting = start > self.now;
        self.slots[slot] = Some(Live { job, column, start, waiting });
        Reply::Done(column, start, start + job.exec)
    }

    // now, and each finish up to the last possible start, rising
    fn times(&self, job: &Job) -> Vec<u32> {
        let last = job.deadline - job.exec;
        let mut times = vec![self.now];
        times.extend(self.live().map(|k| k.finish()).filter(|&f| f > self.now && f <= last));
        times.sort();
        times.dedup();
        times
    }

    // (size, left edge) of each longest run of columns that are free and wide enough, best fit first
    fn runs(&self, taken: &[bool; 256], width: u16) -> Vec<(u16, u16)> {
        let mut runs = Vec::new();
        let mut from = 0;
        for c in 0..=self.width as usize {
            if c == self.width as usize || taken[c] {
                if c - from >= width as usize {
                    runs.push(((c - from) as u16, from as u16 + 1));
                }
                from = c + 1;
            }
        }
        runs.sort();
        runs
    }

    fn try_at(&self, t: u32, job: &Job) -> Option<u16> {
        let mut taken = [false; 256];
        for k in self.live().filter(|k| k.start <= t && t < k.finish()) {
            taken[k.column as usize - 1..k.end() as usize - 1].fill(true);
        }
        let free = |left: u16| {
            !self.live().any(|k| {
                k.waiting
                    && left < k.end()
                    && k.column < left + job.width
                    && t < k.finish()
                    && k.start < t + job.exec
            })
        };
        self.runs(&taken, job.width).into_iter().map(|(_, left)| left).find(|&left| free(left))
    }

    fn stuffing(&self, job: &Job) -> Option<(u16, u32)> {
        self.times(job).into_iter().find_map(|t| self.try_at(t, job).map(|c| (c, t)))
    }

    fn horizon(&self, job: &Job) -> Option<(u16, u32)> {
        let mut release = [self.now; 256];
        for k in self.live() {
            for r in &mut release[k.column as usize - 1..k.end() as usize - 1] {
                *r = (*r).max(k.finish());
            }
        }
        let columns = &release[..self.width as usize];
        let mut times = columns.to_vec();
        times.push(self.now);
        times.sort();
        times.dedup();
        for t in times {
            if t > job.deadline - job.exec {
                break;
            }
            let mut taken = [false; 256];
            for (c, r) in columns.iter().enumerate() {
                taken[c] = *r > t;
            }
            if let Some(&(_, left)) = self.runs(&taken, job.width).first() {
                return Some((left, t));
            }
        }
        None
    }

    fn full(&self, job: &Job) -> Option<(u16, u32)> {
        for t in self.times(job) {
            for c in 1..=self.width - job.width + 1 {
                let meets = self.live().any(|k| {
                    c < k.end()
                        && k.column < c + job.width
                        && t < k.finish()
                        && k.start < t + job.exec
                });
                if !meets {
                    return Some((c, t));
                }
            }
        }
        None
    }

    // the openings after a pair, (start, column) each, as many as `out` has room for: how many, and whether a further one remains
    fn openings(&self, job: &Job, after: (u32, u32), out: &mut [u32]) -> (usize, bool) {
        let (width, need) = (self.width as usize, job.width as usize);
        let last = job.deadline - job.exec;
        let room = out.len() / 2;
        let (mut t, mut from) = if after.0 < self.now { (self.now, 0) } else { (after.0, after.1 as usize) };
        let mut n = 0;
        while t <= last {
            let mut taken = [false; 256];
            for k in self.live().filter(|k| t < k.finish() && k.start < t + job.exec) {
                taken[k.column as usize - 1..k.end() as usize - 1].fill(true);
            }
            let (mut run, mut open) = (0, from > 0);
            for (c, &held) in taken[..width].iter().enumerate().skip(from) {
                run = if held { 0 } else { run + 1 };
                if run >= need && (c + 1 - need) % self.step == 0 {
                    if n == room {
                        return (n, true);
                    }
                    out[2 * n] = t;
                    out[2 * n + 1] = (c + 2 - need) as u32;
                    n += 1;
                    open = true;
                }
            }
            let next = if open { Some(t + 1) } else { self.live().map(|k| k.finish()).filter(|&f| f > t).min() };
            let Some(next) = next else { break };
            (t, from) = (next, 0);
        }
        (n, false)
    }
}

struct Dice(u64);

impl Dice {
    fn roll(&mut self) -> u64 {
        self.0 = (self.0 * 1_103_515_245 + 12_345) & 0x7fff_ffff;
        self.0 >> 10
    }
}

fn between(roll: u64, low: u64, high: u64) -> u32 {
    (low + roll % (high - low + 1)) as u32
}

fn mix(sum: u64, reply: Reply) -> u64 {
    let add = match reply {
        Reply::No(n) => n as u64,
        Reply::Done(c, s, f) => 7 * c as u64 + s as u64 + f as u64,
    };
    sum % 1_000_000_007 * 31 + add
}

// (columns, (w low, high), (e low, high), most laxity, most ticks between submissions)
const LOADS: [(u16, (u64, u64), (u64, u64), u64, u64); 3] = [
    (96, (7, 22), (5, 100), 50, 8),
    (256, (1, 40), (5, 200), 200, 5),
    (256, (1, 8), (200, 1000), 500, 18),
];

fn session(planner: u8, workload: usize, rounds: u32, stats: bool) -> u64 {
    let (columns, w, e, laxity, step) = LOADS[workload];
    let mut device = Device::new(columns, 64);
    let mut dice = Dice(1);
    let (mut sum, mut now) = (0, 0);
    let (mut placed, mut rejected, mut refused, mut live) = (0u64, 0u64, 0u64, 0u64);
    for id in 1..=rounds {
        let rolls: [u64; 5] = std::array::from_fn(|_| dice.roll());
        now += between(rolls[0], 0, step);
        device.advance(now);
        if stats {
            live += device.live().count() as u64;
        }
        let exec = between(rolls[1], e.0, e.1);
        let job = Job {
            id,
            exec,
            deadline: now + exec + between(rolls[2], 1, laxity),
            width: between(rolls[3], w.0, w.1) as u16,
            height: between(rolls[4], 7, 22) as u16,
        };
        let reply = device.submit(planner, job);
        match reply {
            Reply::Done(..) => placed += 1,
            Reply::No(10) => rejected += 1,
            _ => refused += 1,
        }
        sum = mix(sum, reply);
    }
    if stats {
        let n = rounds as u64;
        eprintln!("placed {} rejected {} refused {} per hundred, {} live", 100 * placed / n, 100 * rejected / n, 100 * refused / n, live / n);
    }
    sum
}

// so many tasks, four columns each, side by side
fn filled(live: u32) -> Device {
    let mut device = Device::new(256, 64);
    for id in 1..=live {
        let exec = if id % 8 == 0 { 1_000_000 } else { 1000 + id % 64 * 16 };
        device.submit(3, Job { id, exec, deadline: 10_000_000, width: 4, height: 1 });
    }
    device
}

fn stuck(planner: u8, rounds: u32) -> u64 {
    let mut device = filled(63);
    (0..rounds).fold(0, |sum, round| {
        let job = Job { id: 1000, exec: 50 + round % 8, deadline: 500_000, width: 33, height: 1 };
        mix(sum, device.submit(planner, job))
    })
}

// an empty board; 64 tasks of drawn sizes; late in its life, 64 tasks of all columns, one after the other
fn empty() -> Device {
    Device::new(256, 64)
}

fn scattered() -> Device {
    let mut device = empty();
    let mut dice = Dice(1);
    for id in 1..=64 {
        let rolls: [u64; 5] = std::array::from_fn(|_| dice.roll());
        let (exec, width) = (between(rolls[1], 200, 1000), between(rolls[3], 1, 16) as u16);
        device.submit(3, Job { id, exec, deadline: 10_000_000, width, height: 1 });
    }
    device
}

fn walled() -> Device {
    let mut device = empty();
    device.advance(1_989_999_999);
    for id in 1..=64 {
        device.submit(3, Job { id, exec: 100_000, deadline: 2_000_000_000, width: 256, height: 1 });
    }
    device
}

fn last_pair(out: &[u32], count: usize) -> (u32, u32) {
    if count == 0 { (0, 0) } else { (out[2 * count - 2], out[2 * count - 1]) }
}

fn count(sum: u64, count: usize, more: bool, pair: (u32, u32)) -> u64 {
    sum % 1_000_000_007 * 31 + count as u64 * 5 + more as u64 * 3 + pair.0 as u64 + pair.1 as u64 * 7
}

fn wanted(width: u16, exec: u32, deadline: u32) -> Job {
    Job { id: 1000, exec, deadline, width, height: 1 }
}

// openings asked for again and again; `on`: those after the last pair given while a further one remains
fn asking(mut device: Device, job: Job, from: (u32, u32), on: bool, out: &mut [u32], rounds: u32, stats: bool) -> u64 {
    let (mut sum, mut pair, mut openings) = (0, from, 0);
    let clock = device.now;
    for round in 0..rounds {
        device.now = clock + round % 8;
        let (n, more) = device.openings(&job, pair, out);
        let last = last_pair(out, n);
        sum = count(sum, n, more, last);
        openings += n;
        pair = if on && more { last } else { from };
    }
    if stats {
        eprintln!("{openings} openings");
    }
    let total = out.iter().fold(0, |sum, &x| sum % 1_000_000_007 * 31 + x as u64);
    sum % 1_000_000_007 + total % 1_000_000_007
}

fn pages(board: u8, rounds: u32, stats: bool) -> u64 {
    let (device, job) = match board {
        0 => (empty(), wanted(1, 1, 10_000_001)),
        1 => (scattered(), wanted(4, 20, 2092)),
        _ => (empty(), wanted(33, 1, 10_000_001)),
    };
    asking(device, job, (0, 0), true, &mut [0; 16384], rounds, stats)
}

// a whole list, in one column a step and in several
fn stepped(board: u8, rounds: u32, stats: bool) -> u64 {
    let (live, step, job) = match board {
        0 => (0, 1, wanted(16, 1, 33)),
        1 => (0, 16, wanted(16, 1, 33)),
        2 => (32, 1, wanted(4, 1, 60)),
        _ => (32, 4, wanted(4, 1, 60)),
    };
    let mut device = filled(live);
    device.step = step;
    asking(device, job, (0, 0), true, &mut [0; 16384], rounds, stats)
}

fn firsts(board: u8, rounds: u32, stats: bool) -> u64 {
    let (device, job, from) = match board {
        0 => (empty(), wanted(1, 1, 10_000_001), (0, 0)),
        1 => (scattered(), wanted(8, 20, 10_000_020), (0, 0)),
        2 => (walled(), wanted(1, 1, 2_000_000_000), (0, 0)),
        _ => (walled(), wanted(256, 1, 2_000_000_000), (1_999_999_998, 1)),
    };
    asking(device, job, from, false, &mut [0; 2], rounds, stats)
}

fn main() {
    let words: Vec<String> = env::args().collect();
    let number = |i: usize| words[i].parse::<u32>().expect("a number");
    let (planner, workload, rounds) = (number(1) as u8, number(2) as usize, number(3));
    let stats = words.len() > 4;
    let sum = match workload {
        4 => stuck(planner, rounds),
        5 => pages(planner, rounds, stats),
        6 => firsts(planner, rounds, stats),
        7 => stepped(planner, rounds, stats),
        _ => session(planner, workload, rounds, stats),
    };
    println!("{sum}");
}
