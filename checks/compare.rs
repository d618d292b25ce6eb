//! compare [SEED]: calls desk_call on many plan files of both versions, sound and
//! damaged, twice each, and holds each block byte for byte to model.rs.
//! Small plans are also solved by trying every assignment. One seed always gives the
//! same files. Exit status 0 when all agree and every number came in both versions.

// The other checks use the rest.
#[allow(dead_code)]
mod model;
mod plans;

use model::{Node, Outcome, Task, TICK_MAX};
use plans::{
    damaged_file, dearest_plan, delayed, encode, extreme_plan, filled, infeasible_plan, infeasible_plan_2,
    latest_plan, limit_files, loaded_plan, named, put, random_plan, small_plan, sound_file, tight, version_traps,
    Layout, Random, FILE_MAX,
};
use std::collections::BTreeSet;
use std::process::exit;

extern "C" {
    fn desk_call(file: *const u8, file_len: usize, block: *mut u8, block_len: usize, budget: u64) -> u32;
}

const DEFAULT_SEED: u64 = 20_240_229;
const BLOCK: usize = 100;
const TIME_LIMIT_SECONDS: u64 = 600;

// The call, between guards.

const GUARD: usize = 64;

struct Lent {
    bytes: Vec<u8>,
    at: usize,
    length: usize,
}

/// `content` between guard bytes, at an address that is aligned only by chance.
fn lend(random: &mut Random, content: &[u8]) -> Lent {
    let at = GUARD + random.index(8);
    let mut bytes = vec![random.next() as u8; at + content.len() + GUARD];
    bytes[at..at + content.len()].copy_from_slice(content);
    Lent { bytes, at, length: content.len() }
}

impl Lent {
    fn content(&self) -> &[u8] {
        &self.bytes[self.at..self.at + self.length]
    }

    fn guards_hold(&self, before: &[u8]) -> bool {
        self.bytes[..self.at] == before[..self.at]
            && self.bytes[self.at + self.length..] == before[self.at + self.length..]
    }
}

/// What a call returned and left behind.
struct Made {
    number: u32,
    block: Lent,
    block_before: Vec<u8>,
    file_holds: bool,
}

fn make(random: &mut Random, file: &[u8], content: &[u8], budget: u64) -> Made {
    let file = lend(random, file);
    let file_before = file.bytes.clone();
    let mut block = lend(random, content);
    let block_before = block.bytes.clone();
    let (at, length) = (block.at, block.length);
    let space = &mut block.bytes[at..at + length];
    // Sound: both parts are live for their lengths and do not overlap.
    let number = unsafe { desk_call(file.content().as_ptr(), file.length, space.as_mut_ptr(), length, budget) };
    Made { number, block, block_before, file_holds: file.bytes == file_before }
}

// Comparison.

/// The files that were made in one version.
struct Comparison {
    version: u64,
    seed: u64,
    files: u64,
    calls: u64,
    times: [u64; 35],
    places: Vec<BTreeSet<u32>>,
}

fn hex(bytes: &[u8]) -> String {
    bytes.iter().map(|byte| format!("{byte:02x}")).collect()
}

impl Comparison {
    fn new(version: u64, seed: u64) -> Comparison {
        Comparison { version, seed, files: 0, calls: 0, times: [0; 35], places: vec![BTreeSet::new(); 35] }
    }

    fn fail(&self, what: &str, file: &[u8], budget: u64, outcome: &Outcome, block: &[u8]) -> ! {
        println!("compare: {what} (version {}, seed {}, call {})", self.version, self.seed, self.calls);
        println!("file of {} bytes, budget {budget}: {}", file.len(), hex(file));
        println!("model: {outcome:?}");
        println!("block:  {}", hex(block));
        println!("wanted: {}", hex(&model::block(outcome)));
        exit(1)
    }

    /// One call held to what the model says of it.
    fn hold(&self, made: &Made, file: &[u8], budget: u64, outcome: &Outcome) {
        let held = [
            ("the returned number differs", made.number == outcome.number),
            ("the block differs", made.block.content() == model::block(outcome)),
            ("a byte around the block changed", made.block.guards_hold(&made.block_before)),
            ("the file or a byte around it changed", made.file_holds),
        ];
        for (what, holds) in held {
            if !holds {
                self.fail(what, file, budget, outcome, made.block.content());
            }
        }
    }

    /// Two calls, at different places and over blocks that differ in every bit, so that
    /// each byte must be written, against the model; returns what it says.
    fn call(&mut self, random: &mut Random, file: &[u8], budget: u64) -> Outcome {
        let outcome = model::desk(file, budget);
        let old = random.next() as u8;
        for byte in [old, !old] {
            let made = make(random, file, &[byte; BLOCK], budget);
            self.calls += 1;
            self.hold(&made, file, budget, &outcome);
        }
        outcome
    }

    /// The same, counted.
    fn check(&mut self, random: &mut Random, file: &[u8], budget: u64) -> Outcome {
        let outcome = self.call(random, file, budget);
        self.times[outcome.number as usize] += 1;
        self.places[outcome.number as usize].insert(outcome.place);
        outcome
    }

    /// A block of a wrong length: 25 before anything of the file, nothing written.
    fn check_length(&mut self, random: &mut Random, file: &[u8], length: usize) {
        let budget = random.next();
        let made = make(random, file, &vec![0x5a; length], budget);
        self.calls += 1;
        if made.number != 25 || made.block.bytes != made.block_before || !made.file_holds {
            let outcome = Outcome { number: 25, ..Outcome::default() };
            self.fail("a block of a wrong length", file, budget, &outcome, made.block.content());
        }
        self.times[25] += 1;
    }

    fn check_lengths(&mut self, random: &mut Random, file: &[u8]) {
        for length in [0, 1, 99, 101, 1_000] {
            for _ in 0..2 {
                self.check_length(random, file, length);
            }
        }
    }

    fn file(&mut self, random: &mut Random, file: &[u8], budgets: &[u64]) {
        self.files += 1;
        for &budget in budgets {
            self.check(random, file, budget);
        }
    }

    /// Sixteen tasks in version 2 that get this number and place in one round.
    fn says(&mut self, random: &mut Random, tasks: &[Task], number: u32, place: u32) {
        let file = encode(tasks, &tight(2, 16));
        self.files += 1;
        let outcome = self.check(random, &file, 1);
        if (outcome.number, outcome.place) != (number, place) {
            self.fail("another number or place than by hand", &file, 1, &outcome, &[]);
        }
    }
}

/// The response times, none of a task that is late, as the model climbs to them.
fn climbed(tasks: &[Task], periods: &[u64]) -> Vec<Option<u64>> {
    (0..tasks.len()).map(|i| model::response_time(tasks, periods, i)).collect()
}

/// The same by their definition.
fn scanned(tasks: &[Task], periods: &[u64]) -> Vec<Option<u64>> {
    (0..tasks.len()).map(|i| model::response_time_by_scan(tasks, periods, i)).collect()
}

/// The time test by its definition.
fn schedulable_by_scan(tasks: &[Task], periods: &[u64]) -> bool {
    (0..tasks.len()).all(|i| model::response_time_by_scan(tasks, periods, i).is_some())
}

/// The least schedulable assignment by trying them all, with the time test by
/// its definition; and how many assignments there are.
fn by_trying_all(tasks: &[Task]) -> (Option<Node>, u64) {
    let mut least: Option<Node> = None;
    let mut count = 0;
    let mut periods: Vec<u64> = tasks.iter().map(|task| task.period_min).collect();
    loop {
        count += 1;
        if schedulable_by_scan(tasks, &periods) {
            let found = model::node(tasks, periods.clone());
            if least.as_ref().map_or(true, |least| found < *least) {
                least = Some(found);
            }
        }
        let Some(i) = (0..tasks.len()).rev().find(|&i| periods[i] < tasks[i].period_max) else {
            return (least, count);
        };
        periods[i] += 1;
        for j in i + 1..tasks.len() {
            periods[j] = tasks[j].period_min;
        }
    }
}

/// The lowering by its definition: every value up from the node's in turn, with
/// the time test by its definition.
fn lowering_by_scan(tasks: &[Task], node: &[u64]) -> Vec<u64> {
    let mut lowered = model::highest(tasks);
    for i in 0..tasks.len() {
        lowered[i] = node[i];
        while !schedulable_by_scan(tasks, &lowered) {
            lowered[i] += 1;
        }
    }
    lowered
}

/// What a stop says of its incumbent, against the least of all.
fn incumbent_holds(tasks: &[Task], stop: &Outcome, least: &Node) -> bool {
    let within = |(task, period): (&Task, &u64)| task.period_min <= *period && *period <= task.period_max;
    stop.periods.len() == tasks.len()
        && tasks.iter().zip(&stop.periods).all(within)
        && schedulable_by_scan(tasks, &stop.periods)
        && stop.cost == model::node(tasks, stop.periods.clone()).cost
        && least.cost <= stop.cost
        && stop.bound <= stop.cost
}

/// What the demands say of the outcome, against every assignment.
fn demands_hold(
    tasks: &[Task],
    outcome: &Outcome,
    least: &Option<Node>,
    count: u64,
    budget: u64,
    space: u64,
) -> bool {
    let Some(least) = least else {
        return outcome.number == 31 || outcome.number == 32;
    };
    let stop_holds = || {
        (budget < count || space / (tasks.len() as u64) < count)
            && outcome.bound <= least.cost
            && incumbent_holds(tasks, outcome, least)
    };
    outcome.rounds <= count
        && match outcome.number {
            0 => outcome.cost == least.cost && outcome.periods == least.periods,
            33 => stop_holds() && outcome.rounds == budget,
            34 => stop_holds() && outcome.rounds <= budget,
            _ => false,
        }
}

fn small_plans(
    comparison: &mut Comparison,
    random: &mut Random,
    count: u64,
    plan: impl Fn(&mut Random) -> Vec<Task>,
) {
    for _ in 0..count {
        let tasks = plan(random);
        let file = sound_file(random, comparison.version, &tasks);
        let (least, assignments) = by_trying_all(&tasks);
        comparison.files += 1;
        for budget in
            [random.of(&[0, 1, 2]), random.within(3, 30), random.of(&[assignments, 1 << 32, 1 << 63, u64::MAX])]
        {
            let outcome = comparison.check(random, &file, budget);
            if !demands_hold(&tasks, &outcome, &least, assignments, budget, model::WORK_SPACE) {
                comparison.fail("not what trying all gives", &file, budget, &outcome, &[]);
            }
        }
        // The model alone in a small work space: 34 comes often there.
        let space = random.within(tasks.len() as u64, 24);
        let outcome = model::search(&tasks, u64::MAX, space);
        if !demands_hold(&tasks, &outcome, &least, assignments, u64::MAX, space) {
            comparison.fail("in a small space: not what trying all gives", &file, u64::MAX, &outcome, &[]);
        }
        // The model's times and lowering of any node, against their definitions.
        let node: Vec<u64> = tasks.iter().map(|task| random.within(task.period_min, task.period_max)).collect();
        if climbed(&tasks, &node) != scanned(&tasks, &node) {
            comparison.fail("the times differ", &file, 0, &Outcome { periods: node, ..Outcome::default() }, &[]);
        }
        if least.is_some() && model::lowering(&tasks, &node) != lowering_by_scan(&tasks, &node) {
            comparison.fail("the lowering differs", &file, 0, &Outcome { periods: node, ..Outcome::default() }, &[]);
        }
    }
}

fn damaged_files(comparison: &mut Comparison, random: &mut Random, count: u64) {
    for _ in 0..count {
        let file = damaged_file(random, comparison.version);
        let budget = random.of(&[0, 1, 2, 5]);
        comparison.file(random, &file, &[budget]);
        if random.chance(200) {
            comparison.check_lengths(random, &file);
        }
    }
}

/// Sound plans of a kind, each with some budgets.
fn sound_plans(
    comparison: &mut Comparison,
    random: &mut Random,
    count: u64,
    plan: impl Fn(&mut Random) -> Vec<Task>,
    budgets: impl Fn(&mut Random) -> Vec<u64>,
) {
    for _ in 0..count {
        let tasks = plan(random);
        let file = sound_file(random, comparison.version, &tasks);
        let budgets = budgets(random);
        comparison.file(random, &file, &budgets);
    }
}

/// In version 2, with every blocking and jitter 0, a plan is answered as in version 1.
fn same_answers(
    comparison: &mut Comparison,
    random: &mut Random,
    count: u64,
    plan: impl Fn(&mut Random) -> Vec<Task>,
) {
    for _ in 0..count {
        let tasks = plan(random);
        let budget = random.within(0, 12);
        let plain = sound_file(random, 1, &tasks);
        let wanted = comparison.call(random, &plain, budget);
        let file = sound_file(random, 2, &tasks);
        comparison.files += 1;
        let outcome = comparison.check(random, &file, budget);
        if outcome != wanted {
            comparison.fail("not as in version 1", &file, budget, &outcome, &[]);
        }
    }
}

// The published examples.

fn plan_p() -> Vec<Task> {
    named(&[(1, 1, 6, 1_000, 1), (2, 1, 8, 1_000, 1)])
}

fn plan_s() -> Vec<Task> {
    named(&[20, 30, 40, 50, 60, 70].map(|wcet| (wcet, 1, 1_000, 1_000, 1)))
}

/// The model against the examples: response times, then outcomes with their
/// number, place, cost, rounds, bound and periods.
fn examples() {
    let times = |tasks: &[Task], periods: &[u64]| -> Vec<u64> {
        let all = climbed(tasks, periods);
        assert_eq!(all, scanned(tasks, periods));
        all.iter().map(|time| time.unwrap_or(0)).collect()
    };
    let (p, s) = (plan_p(), plan_s());
    assert_eq!(times(&p, &[2, 4]), [1, 4]);
    assert_eq!(times(&p, &[2, 3]), [1, 0]);
    assert_eq!(times(&p, &[3, 3]), [1, 3]);
    assert_eq!(times(&p, &[1, 8]), [1, 0]);
    assert_eq!(times(&s, &[105, 140, 210, 280, 420, 840]), [20, 50, 90, 190, 410, 840]);
    assert_eq!(times(&s, &[105, 140, 210, 280, 420, 839]), [20, 50, 90, 190, 410, 0]);
    let full = named(&[(2, 1, 10, 1_000, 1), (3, 1, 10, 1_000, 1)]);
    assert_eq!(times(&full, &[4, 6]), [2, 0]);
    // The gauge's blocking is in its own time only.
    let gauge_blocked = filled(plan_p(), &[(2, 0), (0, 0)]);
    assert_eq!(times(&gauge_blocked, &[3, 3]), [3, 3]);
    assert_eq!(times(&gauge_blocked, &[2, 4]), [0, 4]);
    let radio_blocked = filled(plan_p(), &[(0, 0), (1, 0)]);
    assert_eq!(times(&radio_blocked, &[2, 6]), [1, 6]);
    assert_eq!(times(&radio_blocked, &[2, 5]), [1, 0]);
    assert_eq!(times(&radio_blocked, &[4, 4]), [1, 4]);
    // Jitter comes behind a task's own time; that of the gauge may bring one more run of it.
    let gauge_jitter = filled(plan_p(), &[(0, 3), (0, 0)]);
    assert_eq!(times(&gauge_jitter, &[4, 4]), [4, 4]);
    assert_eq!(times(&gauge_jitter, &[3, 8]), [0, 5]);
    assert_eq!(times(&gauge_jitter, &[6, 3]), [4, 3]);
    assert_eq!(times(&gauge_jitter, &[5, 3]), [4, 0]);
    let radio_jitter = filled(plan_p(), &[(0, 0), (0, 3)]);
    assert_eq!(times(&radio_jitter, &[2, 7]), [1, 7]);
    assert_eq!(times(&radio_jitter, &[2, 6]), [1, 0]);
    let both = filled(plan_p(), &[(0, 3), (1, 2)]);
    assert_eq!(times(&both, &[4, 7]), [4, 7]);
    assert_eq!(times(&both, &[4, 6]), [4, 0]);
    assert_eq!(times(&filled(plan_p(), &[(0, 9), (0, 0)]), &[6, 8]), [0, 5]);

    let says =
        |tasks: &[Task], budget: u64, space: u64, number: u32, place: u32, numbers: [u64; 3], periods: &[u64]| {
            let [cost, rounds, bound] = numbers;
            let n = tasks.len() as u32;
            let wanted = Outcome { number, place, cost, rounds, bound, n, periods: periods.to_vec() };
            assert_eq!(model::search(tasks, budget, space), wanted);
        };
    let ample = model::WORK_SPACE;
    says(&p, 100, ample, 0, 0, [6, 4, 0], &[2, 4]);
    // A stop has the periods of the incumbent and their cost.
    says(&p, 0, ample, 33, 0, [14, 0, 2], &[6, 8]);
    for (budget, bound) in [(1, 4), (2, 5), (3, 6)] {
        says(&p, budget, ample, 33, 0, [6, budget, bound], &[2, 4]);
    }
    says(&p, 9, 2, 34, 0, [6, 2, 4], &[2, 4]);
    says(&named(&[(1, 1, 6, 1_000, 1), (2, 1, 8, 1_000, 3)]), 100, ample, 0, 0, [12, 3, 0], &[3, 3]);
    says(&named(&[(1, 1, 6, 1_000, 1), (2, 1, 8, 3, 1)]), 100, ample, 0, 0, [6, 3, 0], &[3, 3]);
    says(&named(&[(1, 1, 1, 1_000, 1), (2, 1, 8, 1_000, 1)]), 100, ample, 32, 2, [0, 0, 0], &[]);
    says(&named(&[(5, 3, 10, 1_000, 1)]), 100, ample, 0, 0, [5, 2, 0], &[5]);
    says(&named(&[(5, 3, 10, 4, 1)]), 100, ample, 31, 1, [0, 0, 0], &[]);
    says(&gauge_blocked, 100, ample, 0, 0, [6, 3, 0], &[3, 3]);
    // (3, 5) and (4, 4) cost as much and come later.
    says(&radio_blocked, 100, ample, 0, 0, [8, 5, 0], &[2, 6]);
    let single = |cap: u64, blocking: u64, jitter: u64| filled(named(&[(5, 3, 10, cap, 1)]), &[(blocking, jitter)]);
    for (blocking, jitter) in [(5, 0), (0, 5), (2, 3)] {
        says(&single(1_000, blocking, jitter), 100, ample, 0, 0, [10, 2, 0], &[10]);
        says(&single(1_000, blocking + 1, jitter), 100, ample, 31, 1, [0, 0, 0], &[]);
        says(&single(1_000, blocking, jitter + 1), 100, ample, 31, 1, [0, 0, 0], &[]);
    }
    for (blocking, jitter) in [(2, 0), (0, 2), (1, 1)] {
        says(&single(7, blocking, jitter), 100, ample, 0, 0, [7, 2, 0], &[7]);
        says(&single(7, blocking + 1, jitter), 100, ample, 31, 1, [0, 0, 0], &[]);
        says(&single(7, blocking, jitter + 1), 100, ample, 31, 1, [0, 0, 0], &[]);
    }
    for jitter in [6, 7, 8, 9, 10, 11, TICK_MAX] {
        says(&single(7, 0, jitter), 100, ample, 31, 1, [0, 0, 0], &[]);
    }
    says(&filled(plan_p(), &[(0, 0), (4, 0)]), 100, ample, 0, 0, [12, 3, 0], &[4, 8]);
    says(&filled(plan_p(), &[(0, 0), (6, 0)]), 100, ample, 32, 2, [0, 0, 0], &[]);
    says(&filled(plan_p(), &[(0, 0), (7, 0)]), 100, ample, 31, 2, [0, 0, 0], &[]);
    says(&gauge_jitter, 100, ample, 0, 0, [8, 4, 0], &[4, 4]);
    says(&filled(plan_p(), &[(0, 3), (1, 0)]), 100, ample, 0, 0, [9, 3, 0], &[4, 5]);
    says(&filled(plan_p(), &[(0, 5), (0, 0)]), 100, ample, 0, 0, [10, 3, 0], &[6, 4]);
    says(&filled(plan_p(), &[(0, 6), (0, 0)]), 100, ample, 31, 1, [0, 0, 0], &[]);
    // (3, 4) costs as much and comes later.
    says(&filled(plan_p(), &[(0, 0), (0, 1)]), 100, ample, 0, 0, [7, 4, 0], &[2, 5]);
    says(&filled(plan_p(), &[(0, 0), (0, 5)]), 100, ample, 0, 0, [11, 3, 0], &[3, 8]);
    says(&filled(plan_p(), &[(0, 0), (0, 6)]), 100, ample, 32, 2, [0, 0, 0], &[]);
    says(&filled(plan_p(), &[(0, 0), (0, 7)]), 100, ample, 31, 2, [0, 0, 0], &[]);
    // The gauge's jitter makes the radio late, not the gauge.
    let radio_capped = named(&[(1, 1, 6, 1_000, 1), (2, 1, 8, 3, 1)]);
    says(&filled(radio_capped.clone(), &[(0, 3), (0, 0)]), 100, ample, 0, 0, [9, 3, 0], &[6, 3]);
    says(&filled(radio_capped, &[(0, 4), (0, 0)]), 100, ample, 32, 2, [0, 0, 0], &[]);
}

/// Plans made by hand: plan S, which must stop with 34, a late incumbent, the
/// dearest answer (16,000,000,000) and the smallest and longest files.
fn chosen_files(comparison: &mut Comparison, random: &mut Random) {
    let s = encode(&plan_s(), &tight(1, 6));
    comparison.files += 1;
    let outcome = comparison.check(random, &s, u64::MAX);
    if (outcome.number, outcome.cost, outcome.bound, outcome.rounds) != (34, 4_877, 1_448, 13_870) {
        comparison.fail("plan S", &s, u64::MAX, &outcome, &[]);
    }
    // The round that overfills the space gives 34 even as the last one.
    comparison.file(random, &s, &[13_870, 0, 1, 2, 500]);

    // Here that round still improves the incumbent.
    let weights = [13, 20, 37, 40, 50, 57, 60, 61, 71, 86, 87, 98, 100];
    let late = encode(&named(&weights.map(|weight| (1, 10, 39, 1_000, weight))), &tight(1, weights.len()));
    comparison.files += 1;
    let full = comparison.check(random, &late, u64::MAX);
    let before = comparison.check(random, &late, full.rounds - 1);
    if full.number != 34 || before.number != 33 || full.cost >= before.cost {
        comparison.fail("the last round's incumbent", &late, u64::MAX, &full, &[]);
    }

    let p = encode(&plan_p(), &tight(1, 2));
    comparison.file(random, &p, &[0, 1, 2, 3, 4, 5, 100_000, 1 << 32, (1 << 32) + 3, 1 << 63, u64::MAX]);
    comparison.check_lengths(random, &p);

    let dearest = dearest_plan();
    let file = encode(&dearest, &Layout { version: 1, rows: 16, names: FILE_MAX - 256, total: FILE_MAX });
    comparison.files += 1;
    let outcome = comparison.check(random, &file, 1);
    if (outcome.number, outcome.cost, outcome.rounds) != (0, 16_000_000_000, 1) {
        comparison.fail("the dearest plan", &file, 1, &outcome, &[]);
    }
    comparison.file(random, &file, &[0, u64::MAX]);
    let mut free = dearest.clone();
    free.iter_mut().for_each(|task| task.period_min = 999_990);
    comparison.file(random, &encode(&free, &tight(1, 16)), &[0, 1, 50, u64::MAX]);

    for length in [0, 1, 15, 16, 17, 51, 52, 2_047, 2_048, 2_049, 70_000] {
        comparison.file(random, &vec![0; length], &[1]);
        let mut file = vec![0; length.max(16)];
        file[0] = 1;
        file[2] = 1;
        comparison.file(random, &file[..length], &[1]);
    }
    // Every byte value in every place of a name, and every bit of a file flipped.
    let one = encode(&named(&[(5, 3, 10, 1_000, 1)]), &Layout { version: 1, rows: 17, names: 38, total: 55 });
    for at in 38..54 {
        for fill in [0, b'x'] {
            for byte in 0..=255 {
                let mut file = one.clone();
                file[38..at].fill(b'x');
                file[at..54].fill(fill);
                file[at] = byte;
                comparison.file(random, &file, &[2]);
            }
        }
    }
    flipped_and_cut(comparison, random, &one);
    flipped_and_cut(comparison, random, &p);
}

/// A file with each of its bits flipped and cut at each length, whatever its total says.
fn flipped_and_cut(comparison: &mut Comparison, random: &mut Random, file: &[u8]) {
    for bit in 0..8 * file.len() {
        let mut file = file.to_vec();
        file[bit / 8] ^= 1 << bit % 8;
        comparison.file(random, &file, &[3]);
    }
    for length in 0..file.len() {
        let mut file = file[..length].to_vec();
        comparison.file(random, &file, &[3]);
        if length >= 16 {
            put(&mut file, 12, length as u64, 4);
            comparison.file(random, &file, &[3]);
        }
    }
}

/// Each task responds just at its deadline; by a tick more it is the one that is late. By
/// a tick of jitter in place of one of blocking it is not, but the task right below is.
fn latest_responses(comparison: &mut Comparison, random: &mut Random) {
    let latest = latest_plan();
    comparison.says(random, &latest, 0, 0);
    for i in 0..16 {
        let (number, place) = (if i == 0 { 31 } else { 32 }, i as u32 + 1);
        let mut late = latest.clone();
        late[i].blocking += 1;
        comparison.says(random, &late, number, place);
        late[i].blocking -= 1;
        late[i].jitter += 1;
        comparison.says(random, &late, number, place);
        late[i].blocking -= 1;
        let (number, place) = if i < 15 { (32, place + 1) } else { (0, 0) };
        comparison.says(random, &late, number, place);
    }
}

/// All tasks but the upper respond just at their deadlines. Its jitter, with which it is on
/// time itself, makes the lower the first late one, by one more run; a tick less of it
/// makes that the next one, where there is one.
fn late_below(comparison: &mut Comparison, random: &mut Random) {
    for upper in 0..16 {
        for lower in upper + 1..16 {
            let mut tasks = named(&[(2, 40, 40, 40, 1); 16]);
            for (i, task) in tasks.iter_mut().enumerate().filter(|(i, _)| *i != upper) {
                task.deadline_cap = 2 * (i as u64 + 1);
            }
            tasks[upper].jitter = 41 - tasks[lower].deadline_cap;
            let place = lower as u32 + 1;
            comparison.says(random, &tasks, 32, place);
            tasks[upper].jitter -= 1;
            let (number, place) = if lower < 15 { (32, place + 1) } else { (0, 0) };
            comparison.says(random, &tasks, number, place);
        }
    }
}

/// Files of version 2 made by hand: rows of either width under many version numbers, the
/// two further fields about their limits, responses at the last tick there is, jitter that
/// makes a task below late, and the most jitter everywhere.
fn chosen_files_2(comparison: &mut Comparison, random: &mut Random) {
    for n in [1, 2, 16] {
        let numbers = [0, 1, 2, 3, 256, 257, 258, 513, 0xffff];
        for file in version_traps(n, &[0, 1, 8 * n - 1, 8 * n], &numbers) {
            comparison.file(random, &file, &[2]);
        }
    }

    for file in limit_files(16) {
        comparison.file(random, &file, &[0, 3]);
    }
    latest_responses(comparison, random);
    late_below(comparison, random);
    let most = named(&[(1, 1_000, TICK_MAX, TICK_MAX, 1); 16]);
    comparison.says(random, &filled(most.clone(), &[(TICK_MAX, TICK_MAX); 16]), 31, 1);
    comparison.says(random, &filled(most.clone(), &[(0, TICK_MAX); 16]), 31, 1);
    comparison.says(random, &filled(most, &[(0, TICK_MAX - 1); 16]), 32, 2);

    let one = filled(named(&[(5, 3, 300, 1_000, 1)]), &[(3, 258)]);
    let layout = Layout { version: 2, rows: 17, names: 46, total: 63 };
    flipped_and_cut(comparison, random, &encode(&one, &layout));
    let two = encode(&filled(plan_p(), &[(2, 1), (1, 2)]), &tight(2, 2));
    flipped_and_cut(comparison, random, &two);
    comparison.check_lengths(random, &two);
}

/// Every number came, and those with places in all the places they can have
/// (32 never in place 1: that task alone would be 31).
fn coverage(comparison: &Comparison) -> bool {
    let version = comparison.version;
    let mut complete = true;
    for number in (0..=11).chain([25]).chain(31..=34) {
        let (times, places) = (comparison.times[number], &comparison.places[number]);
        let wanted: Vec<u32> = match number {
            5 => (1..=2).collect(),
            7 => vec![16, 2_047],
            8 | 9 | 10 | 31 => (1..=16).collect(),
            11 | 32 => (2..=16).collect(),
            25 => vec![],
            _ => vec![0],
        };
        let missing = wanted.iter().filter(|place| !places.contains(place)).count();
        println!("version {version}, number {number:2}: {times:7} times, {:4} places", places.len().max(1));
        if times == 0 || missing > 0 {
            println!("number {number} is missing, or {missing} of its places");
            complete = false;
        }
    }
    complete
}

/// A wrong planner may search for ever; this run does not wait for it.
fn watch() {
    std::thread::spawn(|| {
        std::thread::sleep(std::time::Duration::from_secs(TIME_LIMIT_SECONDS));
        println!("compare: not done after {TIME_LIMIT_SECONDS} seconds");
        exit(1);
    });
}

/// Long searches: answers and 33.
fn long_plan(random: &mut Random) -> Vec<Task> {
    let (n, percent) = (random.within(3, 12), random.within(80, 99));
    loaded_plan(random, n, percent, false)
}

/// Mostly 34, in rooms of all sizes.
fn overfull_plan(random: &mut Random) -> Vec<Task> {
    let (n, percent) = (random.within(12, 16), random.within(60, 80));
    loaded_plan(random, n, percent, true)
}

/// Files of sixteen names that are equal but for one byte, whichever it is, the same
/// with each two of them equal, and one file of names that have each half from another.
fn alike_names(comparison: &mut Comparison, random: &mut Random, version: u64) {
    let sound = named(&[(1, 20, 40, 1_000, 1); 16]);
    let mut halves = sound.clone();
    for (i, task) in halves.iter_mut().enumerate() {
        task.name[..8].fill(b'a' + i as u8 / 4);
        task.name[8..].fill(b'a' + i as u8 % 4);
    }
    comparison.file(random, &encode(&halves, &tight(version, 16)), &[0]);
    for at in 0..16 {
        let mut alike = sound.clone();
        for (i, task) in alike.iter_mut().enumerate() {
            task.name = *b"TIDE-GAUGE-NORTH";
            task.name[at] = b'a' + i as u8;
        }
        comparison.file(random, &encode(&alike, &tight(version, 16)), &[0]);
        for later in 1..16 {
            for earlier in 0..later {
                let mut tasks = alike.clone();
                tasks[later].name = tasks[earlier].name;
                comparison.file(random, &encode(&tasks, &tight(version, 16)), &[0]);
            }
        }
    }
}

fn version_1(seed: u64, random: &mut Random) -> Comparison {
    let mut comparison = Comparison::new(1, seed);
    chosen_files(&mut comparison, random);
    small_plans(&mut comparison, random, 40_000, small_plan);
    damaged_files(&mut comparison, random, 150_000);
    sound_plans(&mut comparison, random, 4_000, infeasible_plan, |random| vec![random.within(0, 1)]);
    sound_plans(&mut comparison, random, 1_500, extreme_plan, |random| vec![random.within(0, 3)]);
    sound_plans(&mut comparison, random, 4_000, random_plan, |random| {
        vec![random.of(&[0, 1, 2]), random.within(3, 12)]
    });
    sound_plans(&mut comparison, random, 100, random_plan, |random| vec![random.within(50, 300)]);
    sound_plans(&mut comparison, random, 100, long_plan, |random| vec![random.within(500, 1_500)]);
    sound_plans(&mut comparison, random, 14, overfull_plan, |_| vec![u64::MAX]);
    alike_names(&mut comparison, random, 1);
    comparison
}

fn version_2(seed: u64, random: &mut Random) -> Comparison {
    let mut comparison = Comparison::new(2, seed);
    chosen_files_2(&mut comparison, random);
    same_answers(&mut comparison, random, 2_000, small_plan);
    same_answers(&mut comparison, random, 500, random_plan);
    small_plans(&mut comparison, random, 40_000, delayed(small_plan));
    damaged_files(&mut comparison, random, 75_000);
    sound_plans(&mut comparison, random, 4_000, infeasible_plan_2, |random| vec![random.within(0, 1)]);
    sound_plans(&mut comparison, random, 1_500, delayed(extreme_plan), |random| vec![random.within(0, 3)]);
    sound_plans(&mut comparison, random, 4_000, delayed(random_plan), |random| {
        vec![random.of(&[0, 1, 2]), random.within(3, 12)]
    });
    sound_plans(&mut comparison, random, 100, delayed(random_plan), |random| vec![random.within(50, 300)]);
    sound_plans(&mut comparison, random, 100, delayed(long_plan), |random| vec![random.within(500, 1_500)]);
    sound_plans(&mut comparison, random, 14, delayed(overfull_plan), |_| vec![u64::MAX]);
    alike_names(&mut comparison, random, 2);
    comparison
}

fn main() {
    watch();
    let seed = match std::env::args().nth(1).map(|text| text.parse()) {
        None => DEFAULT_SEED,
        Some(Ok(seed)) => seed,
        Some(Err(_)) => {
            eprintln!("usage: compare [SEED]");
            exit(2);
        }
    };
    examples();
    let mut random = Random(seed);
    let one = version_1(seed, &mut random);
    let two = version_2(seed, &mut random);
    let complete = coverage(&one) & coverage(&two);
    println!(
        "{} files made in version 1, {} in version 2, {} calls, seed {seed}: all as the model says",
        one.files,
        two.files,
        one.calls + two.calls
    );
    if !complete {
        exit(1);
    }
}
