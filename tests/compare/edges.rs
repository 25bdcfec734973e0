//! edges: a fixed recording (event records on standard output): the edges of every number range of document 01, its cases 10, 11
//! and 12, the limit of laxity of request Q-2 (document 02), and every set of refusals that one submission can have at once, on the
//! board of zeros, on a board with one task and on one with 64; then the grids of request Q-3, and these sets again where a width is
//! off the grid. `crates/plan/stdin` begins with it; `second` says what `plan` has to print.
//! Build: `rustc -O --edition 2021 tests/compare/edges.rs -o edges` (std only).

use std::io::Write;

struct Tape(Vec<u8>);

impl Tape {
    fn board(&mut self, w: u16, h: u16) {
        self.0.push(1);
        self.0.extend(w.to_le_bytes());
        self.0.extend(h.to_le_bytes());
    }
    fn grid(&mut self, w: u16, h: u16, g: u8) {
        self.0.push(5);
        self.0.extend(w.to_le_bytes());
        self.0.extend(h.to_le_bytes());
        self.0.push(g);
    }
    fn submit(&mut self, planner: u8, id: u32, w: u16, h: u16, e: u32, d: u32) {
        self.0.push(2);
        self.0.push(planner);
        self.0.extend(id.to_le_bytes());
        self.0.extend(w.to_le_bytes());
        self.0.extend(h.to_le_bytes());
        self.0.extend(e.to_le_bytes());
        self.0.extend(d.to_le_bytes());
    }
    fn clock(&mut self, t: u32) {
        self.0.push(3);
        self.0.extend(t.to_le_bytes());
    }
    fn withdraw(&mut self, id: u32) {
        self.0.push(4);
        self.0.extend(id.to_le_bytes());
    }
}

const LAST: u32 = 2_000_000_000;
/// The largest laxity that passes.
const LAX: u32 = 10_000_000;
/// Table 1 of the source: a, e, d, w, h, on 10 x 6.
const TABLE_1: [(u32, u32, u32, u16, u16); 7] =
    [(0, 20, 30, 3, 3), (0, 3, 10, 7, 5), (1, 12, 15, 3, 5), (1, 3, 10, 2, 2), (2, 2, 10, 3, 4), (2, 3, 20, 5, 1), (3, 2, 20, 3, 2)];

/// W and H at and beside their limits, each with a call that needs a sound board.
fn devices(t: &mut Tape) {
    for w in [0, 1, 2, 255, 256, 257, u16::MAX] {
        for h in [0, 1, 2, 1023, 1024, 1025, u16::MAX] {
            t.board(w, h);
            t.submit(3, 1, 1, 1, 1, 10);
            t.clock(0);
            t.withdraw(1);
        }
    }
}

/// Each field of a submission at and beside its limits, by every planner and by numbers that are none, at now 5 on 10 x 6.
fn fields(t: &mut Tape) {
    for planner in [0, 1, 2, 3, 4, 5, 255] {
        let mut one = |id, w, h, e, d| {
            t.board(10, 6);
            t.clock(5);
            t.submit(planner, id, w, h, e, d);
            t.submit(planner, id, w, h, e, d);
        };
        for id in [0, 1, 2, u32::MAX - 1, u32::MAX] {
            one(id, 3, 3, 4, 100);
        }
        for w in [0, 1, 9, 10, 11, u16::MAX] {
            one(7, w, 3, 4, 100);
        }
        for h in [0, 1, 5, 6, 7, u16::MAX] {
            one(7, 3, h, 4, 100);
        }
        for e in [0, 1, 999_999, 1_000_000, 1_000_001, u32::MAX] {
            for d in [0, 5, 6, 7, 1_000_004, 1_000_005, 1_000_006, LAX + 1_000_005, LAX + 1_000_006, LAST - 1, LAST, LAST + 1, u32::MAX] {
                one(7, 3, 3, e, d);
            }
        }
    }
}

/// Laxities at the limit, beside it and far beyond, and below 0, by every planner, early and late: at now 5 with e 4,
/// d 10,000,009 is done and 10,000,010 gives 18.
fn laxities(t: &mut Tape) {
    for planner in 0..4 {
        for (now, e) in [(5, 4), (0, 1), (0, 1_000_000), (1_000_000_000, 77), (LAST - LAX - 1_000_001, 1_000_000), (LAST - LAX - 1_000_000, 1_000_000)] {
            let limit = now + e + LAX;
            for d in [now + e - 1, now + e, limit - 1, limit, limit + 1, limit + 2, LAST - 1, LAST, LAST + 1] {
                t.board(10, 6);
                t.clock(now);
                t.submit(planner, 1, 3, 3, e, d);
                t.submit(planner, 1, 3, 3, e, d);
                t.submit(planner, 2, 8, 3, e, d);
            }
        }
    }
}

/// The last deadlines, from a late now: what was too lax before is taken here.
fn last_deadlines(t: &mut Tape) {
    for planner in 0..4 {
        for now in [LAST - 1_000_000, LAST - 1, LAST] {
            for e in [1, 999_999, 1_000_000] {
                for d in [LAST - 1, LAST, LAST + 1] {
                    t.board(10, 6);
                    t.clock(now);
                    t.submit(planner, 7, 3, 3, e, d);
                    t.submit(planner, 7, 3, 3, e, d);
                }
            }
        }
    }
}

/// Ten tasks over all columns hold the board for as long as the limit: only its last start is left. Then the clock goes on, and
/// the limit with it.
fn last_start(t: &mut Tape) {
    for planner in 0..4 {
        for now in [0, LAST - LAX - 2_000_000] {
            t.board(4, 1);
            t.clock(now);
            for id in 1..=10 {
                t.submit(2, id, 4, 1, 1_000_000, now + 1_000_000 + LAX);
            }
            t.submit(planner, 11, 2, 1, 7, now + 7 + LAX - 1);
            t.submit(planner, 12, 2, 1, 7, now + 7 + LAX + 1);
            t.submit(planner, 13, 2, 1, 7, now + 7 + LAX);
            t.submit(planner, 14, 2, 1, 7, now + 7 + LAX);
            t.submit(planner, 15, 1, 1, 7, now + 7 + LAX);
            t.submit(planner, 13, 1, 1, 7, now + 7 + LAX + 1);
            t.clock(now + 7);
            t.submit(planner, 16, 4, 1, 7, now + 14 + LAX + 1);
            t.submit(planner, 17, 4, 1, 7, now + 14 + LAX - 1);
            t.submit(planner, 18, 4, 1, 7, now + 14 + LAX);
            t.withdraw(13);
            t.clock(now + LAX);
            t.submit(planner, 19, 4, 1, 1_000_000, LAST);
        }
    }
}

/// Case 10: an empty board; w = W done, w = W + 1 gives 5; d = now + e done, one less gives 8.
fn case_10(t: &mut Tape) {
    for planner in 0..4 {
        for (w, d) in [(8, 30), (9, 30), (3, 24), (3, 23)] {
            t.board(8, 2);
            t.clock(20);
            t.submit(planner, 1, w, 1, 4, d);
        }
    }
}

/// 64 tasks side by side on 256 columns, by kind 1 or in steps of four; the first ends sooner.
fn crowd(t: &mut Tape, planner: u8, steps: bool) {
    if steps {
        t.grid(256, 4, 4);
    } else {
        t.board(256, 4);
    }
    for id in 1..=64 {
        t.submit(planner, id, 4, 1, if id == 1 { 50 } else { 100 }, 500);
    }
}

/// Case 11: 64 live; the next gives 9 even where no place exists; after one ends its slot is taken.
fn case_11(t: &mut Tape, steps: bool) {
    for planner in 0..4 {
        crowd(t, planner, steps);
        t.submit(planner, 65, 4, 1, 10, 500);
        t.submit(planner, 66, 4, 1, 10, 20);
        // and too lax gives 18, too late 8, a live id 7
        for (id, d) in [(65, 10 + LAX), (65, 11 + LAX), (65, LAST), (65, 9), (64, 11 + LAX), (64, 10 + LAX), (64, 9)] {
            t.submit(planner, id, 4, 1, 10, d);
        }
        t.clock(49);
        t.submit(planner, 67, 4, 1, 10, 500);
        t.clock(50);
        t.submit(planner, 68, 5, 1, 10, 60);
        t.submit(planner, 69, 4, 1, 10, 60);
        t.submit(planner, 70, 4, 1, 10, 500);
    }
}

/// Case 12: the clock to now changes nothing, to now - 1 gives 11; the last instant, and one past it.
fn case_12(t: &mut Tape) {
    for now in [0, 1, 7, LAST - 1, LAST] {
        t.board(4, 4);
        t.submit(3, 1, 2, 1, 5, LAST);
        t.submit(3, 1, 2, 1, 5, 5 + LAX);
        if now > 7 {
            t.clock(LAST - 4);
            t.submit(3, 1, 2, 1, 4, LAST);
        }
        t.clock(now);
        t.clock(now);
        t.clock(now.wrapping_sub(1));
        t.clock(LAST);
        t.clock(LAST + 1);
        t.clock(u32::MAX);
        t.submit(3, 2, 1, 1, 1, LAST);
    }
}

/// Withdrawal: not live, running, waiting, gone, no id at all.
fn withdrawals(t: &mut Tape) {
    t.board(4, 4);
    t.submit(2, 1, 4, 1, 5, 100);
    t.submit(2, 2, 4, 1, 5, 100);
    for id in [0, 3, u32::MAX, 1, 2, 2] {
        t.withdraw(id);
    }
    t.submit(2, 2, 4, 1, 5, 100);
    t.clock(4);
    t.withdraw(2);
    t.submit(2, 2, 4, 1, 5, 100);
    t.clock(5);
    t.withdraw(1);
    t.withdraw(2);
}

/// Every set of the refusals 3 to 8 and 18 at once, on the board as it stands: the one that is tested first has to win (3 to 8 in
/// rising order, then 18), over 9 and 10 too. `good` is a width of the board, `bad` one that it refuses.
fn sets(t: &mut Tape, good: u16, bad: u16) {
    for set in 0..128u32 {
        let has = |bit: u32| set >> bit & 1 == 1;
        if has(1) && has(4) || has(5) && has(6) {
            continue; // no live task has the id 0; no task is both too late and too lax
        }
        let planner = if has(0) { 4 } else { (set % 4) as u8 };
        let id = if has(1) { 0 } else if has(4) { 2 } else { 1000 + set };
        let w = if has(2) { bad } else { good };
        let e = if has(3) { 1_000_001 } else { 100 };
        // now is 20, or 0 on the board of zeros
        let d = if has(5) { 10 } else if has(6) { 20 + e + LAX + 1 } else if has(3) { 1_500_000 } else { 130 };
        t.submit(planner, id, w, 1, e, d);
    }
}

/// Which grids there are: g from 0 to 18, and the last number that its byte holds, with W 240, which is a multiple of eleven of
/// the sixteen. On each a task of one step, one of a column more and less, one of all columns, and kind 1 after it; then the last
/// W that is a multiple.
fn grids(t: &mut Tape) {
    for g in (0..=18).chain([32, 255]) {
        let (planner, step) = (g % 4, g as u16);
        t.grid(240, 1, g);
        for w in [step, step + 1, step.saturating_sub(1), 2 * step, 240, 240u16.saturating_sub(step), 241] {
            t.submit(planner, 1 + w as u32, w, 1, 2, 30);
        }
        t.clock(1);
        t.withdraw(241);
        t.board(240, 1);
        t.submit(planner, 1, step + 1, 1, 2, 30);
        let last = 256 - 256 % step.max(1);
        t.grid(last, 1, g);
        for w in [step, last - step.min(last), last, last + step] {
            t.submit(planner, 1 + w as u32, w, 1, 2, 30);
        }
    }
}

/// W, H and g at and beside their limits; 0 and 272 are multiples of 16, and no W. A refused one leaves the board of zeros, on which
/// all is answered 1, whatever there was before.
fn grid_devices(t: &mut Tape) {
    for w in [0, 1, 2, 15, 16, 17, 255, 256, 257, 272, u16::MAX] {
        for h in [0, 1, 1024, 1025, u16::MAX] {
            for g in [0, 1, 2, 15, 16, 17, u8::MAX] {
                t.grid(w, h, g);
                t.submit(3, 1, 16, 1, 1, 10);
                t.clock(1);
                t.withdraw(1);
            }
        }
    }
    for (w, g) in [(10, 4), (8, 0), (8, 17), (17, 17), (8, 16), (0, 4)] {
        t.grid(8, 1, 4);
        t.submit(2, 1, 4, 1, 9, 20);
        t.clock(3);
        t.grid(w, 1, g);
        for planner in 0..5 {
            t.submit(planner, 2, 4, 1, 9, 20);
        }
        t.clock(3);
        t.withdraw(1);
    }
}

/// 8 columns in steps of four: w 4, e 1, d 3 has two places at each of three starts; no width but 4 and 8 is one.
fn eight_by_four(t: &mut Tape) {
    for planner in 0..4 {
        t.grid(8, 1, 4);
        for id in 1..=7 {
            t.submit(planner, id, 4, 1, 1, 3);
        }
        t.clock(1);
        for w in [0, 1, 2, 3, 5, 6, 7, 8, 9, 12, u16::MAX] {
            t.submit(planner, 20 + w as u32, w, 1, 1, 30);
        }
    }
}

/// The finest and the coarsest: grid 16 on 256 columns and on 16, grid 1 by kind 5; and one board after the other, as each has its
/// own grid.
fn coarse_and_fine(t: &mut Tape) {
    for planner in 0..4 {
        t.grid(256, 1024, 16);
        for id in 1..=17 {
            t.submit(planner, id, 16, 1024, 5, 40);
        }
        for w in [1, 8, 15, 17, 24, 32, 240, 255, 256] {
            t.submit(planner, 100 + w as u32, w, 1, 5, 40);
        }
        t.clock(5);
        t.submit(planner, 400, 240, 1, 5, 400);
        t.grid(16, 1, 16);
        for w in [1, 4, 8, 15, 16, 16, 32] {
            t.submit(planner, 1 + w as u32, w, 1, 3, 30);
            t.submit(planner, 100 + w as u32, w, 1, 3, 30);
        }
        t.grid(10, 6, 1);
        for w in [1, 3, 2, 5, 10, 11, 0] {
            t.submit(planner, 1 + w as u32, w, 1, 3, 30);
        }
        t.board(10, 6);
        t.submit(planner, 1, 3, 1, 3, 30);
        t.grid(10, 6, 5);
        t.submit(planner, 1, 3, 1, 3, 30);
        t.submit(planner, 1, 5, 1, 3, 30);
        t.board(10, 6);
        t.submit(planner, 1, 3, 1, 3, 30);
    }
}

/// Cases 1 to 3 and 6 to 8 of document 01 with a step for each column.
fn cases_in_steps(t: &mut Tape) {
    for g in [1, 2, 3, 4, 16] {
        for planner in 0..4 {
            // Table 1 of the source
            t.grid(10 * g, 6, g as u8);
            for (id, (a, e, d, w, h)) in (1..).zip(TABLE_1) {
                t.clock(a);
                t.submit(planner, id, w * g, h, e, d);
            }
            // case 6, and 7
            t.grid(4 * g, 1, g as u8);
            t.submit(2, 1, 2 * g, 1, 2, 9);
            t.submit(2, 2, 3 * g, 1, 4, 9);
            t.submit(planner, 3, g, 1, 5, 5);
            t.withdraw(2);
            t.submit(planner, 4, g, 1, 5, 5);
            // case 8: two runs of two steps tie
            t.grid(5 * g, 1, g as u8);
            t.submit(0, 1, 2 * g, 1, 1, 9);
            t.submit(0, 2, g, 1, 9, 9);
            t.clock(1);
            t.submit(planner, 3, 2 * g, 1, 1, 5);
        }
    }
}

fn main() {
    let mut t = Tape(Vec::new());
    // on the board of zeros, which `plan` begins with
    t.clock(0);
    t.clock(LAST + 1);
    t.withdraw(0);
    t.withdraw(1);
    sets(&mut t, 255, 0);
    devices(&mut t);
    fields(&mut t);
    laxities(&mut t);
    last_deadlines(&mut t);
    last_start(&mut t);
    case_10(&mut t);
    case_11(&mut t, false);
    case_12(&mut t);
    withdrawals(&mut t);
    // one live task, over 255 columns, at now 20
    t.board(256, 4);
    t.submit(3, 2, 255, 1, 200, 500);
    t.clock(20);
    sets(&mut t, 255, 0);
    // 64 live tasks
    crowd(&mut t, 2, false);
    t.clock(20);
    sets(&mut t, 255, 0);
    // boards with a grid
    grids(&mut t);
    grid_devices(&mut t);
    eight_by_four(&mut t);
    coarse_and_fine(&mut t);
    cases_in_steps(&mut t);
    case_11(&mut t, true);
    // the sets again: the width that is refused is in range and off the grid
    t.grid(10, 1, 4);
    sets(&mut t, 252, 254);
    t.grid(256, 4, 4);
    t.submit(3, 2, 252, 1, 200, 500);
    t.clock(20);
    sets(&mut t, 252, 254);
    crowd(&mut t, 2, true);
    t.clock(20);
    sets(&mut t, 252, 254);
    std::io::stdout().write_all(&t.0).expect("a recording can be written");
}
