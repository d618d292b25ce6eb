//! docs/FORMAT.md in plain Rust: the file rules, the canonical form, the exact test
//! of Lehoczky, Sha and Ding, the search round by round with its incumbent, the
//! desk's block, the listing, and who feeds whom. It goes the plainest way everywhere
//! and is 64 bits wide throughout; nothing here is shared with what it checks.

use std::collections::BTreeSet;

pub const WORK_SPACE: u64 = 16_000;
const LISTING_BUDGET: u64 = 100_000;
const PROGRAM_READS: usize = 2_049;
pub const TICK_MAX: u64 = 1_000_000;
pub const WEIGHT_MAX: u64 = 1_000;

#[derive(Clone, Debug, PartialEq)]
pub struct Task {
    pub wcet: u64,
    pub period_min: u64,
    pub period_max: u64,
    pub deadline_cap: u64,
    pub weight: u64,
    pub blocking: u64,
    pub jitter: u64,
    pub name: [u8; 16],
}

impl Task {
    /// In the order of a row; version 1 has the first five.
    pub fn fields(&self) -> [u64; 7] {
        [self.wcet, self.period_min, self.period_max, self.deadline_cap, self.weight, self.blocking, self.jitter]
    }

    fn own_demand(&self) -> u64 {
        self.wcet + self.blocking
    }
}

/// A refusal's number and place.
pub type Refusal = (u32, u32);

#[derive(Clone, Debug, Default, PartialEq)]
pub struct Outcome {
    pub number: u32,
    pub place: u32,
    pub cost: u64,
    pub rounds: u64,
    pub bound: u64,
    pub n: u32,
    pub periods: Vec<u64>,
}

fn number_at(file: &[u8], at: usize, width: usize) -> u64 {
    (0..width).rev().fold(0, |value, k| value << 8 | u64::from(file[at + k]))
}

/// READ: the tasks, or the first broken rule of 1 to 11.
pub fn read(file: &[u8]) -> Result<Vec<Task>, Refusal> {
    let length = file.len() as u64;
    if length < 16 || length > 2_048 {
        return Err((1, 0));
    }
    let fields = match number_at(file, 0, 2) {
        1 => 5,
        2 => 7,
        _ => return Err((2, 0)),
    };
    let n = number_at(file, 2, 2);
    if n < 1 || n > 16 {
        return Err((3, 0));
    }
    let total = number_at(file, 12, 4);
    if total != length {
        return Err((4, 0));
    }
    let rows = number_at(file, 4, 4)..number_at(file, 4, 4) + 4 * fields * n;
    let names = number_at(file, 8, 4)..number_at(file, 8, 4) + 16 * n;
    if rows.start < 16 || rows.end > total {
        return Err((5, 1));
    }
    if names.start < 16 || names.end > total {
        return Err((5, 2));
    }
    if rows.clone().any(|at| names.contains(&at)) {
        return Err((6, 0));
    }
    for at in 16..total {
        if !rows.contains(&at) && !names.contains(&at) && file[at as usize] != 0 {
            return Err((7, at as u32));
        }
    }
    let mut tasks: Vec<Task> = Vec::new();
    for i in 0..n {
        tasks.push(read_task(file, rows.start + 4 * fields * i, fields, names.start + 16 * i, i as u32 + 1)?);
    }
    for later in 1..tasks.len() {
        if tasks[..later].iter().any(|earlier| earlier.name == tasks[later].name) {
            return Err((11, later as u32 + 1));
        }
    }
    Ok(tasks)
}

/// A field that the row does not have is 0.
fn read_task(file: &[u8], row: u64, fields: u64, name_at: u64, place: u32) -> Result<Task, Refusal> {
    let field = |k: u64| if k < fields { number_at(file, (row + 4 * k) as usize, 4) } else { 0 };
    let mut name = [0; 16];
    name.copy_from_slice(&file[name_at as usize..name_at as usize + 16]);
    let task = Task {
        wcet: field(0),
        period_min: field(1),
        period_max: field(2),
        deadline_cap: field(3),
        weight: field(4),
        blocking: field(5),
        jitter: field(6),
        name,
    };
    let is_tick = |value: u64| value >= 1 && value <= TICK_MAX;
    if !is_tick(task.wcet)
        || !is_tick(task.period_min)
        || !is_tick(task.period_max)
        || !is_tick(task.deadline_cap)
        || task.weight > WEIGHT_MAX
        || task.blocking > TICK_MAX
        || task.jitter > TICK_MAX
    {
        return Err((8, place));
    }
    if task.period_min > task.period_max {
        return Err((9, place));
    }
    if !is_name(&name) {
        return Err((10, place));
    }
    Ok(task)
}

fn name_length(name: &[u8; 16]) -> usize {
    name.iter().position(|&byte| byte == 0).unwrap_or(16)
}

/// 1 to 16 of A-Z, a-z, 0-9 and hyphen, then zero bytes to the end.
fn is_name(name: &[u8; 16]) -> bool {
    let length = name_length(name);
    length >= 1
        && name[..length].iter().all(|byte| byte.is_ascii_alphanumeric() || *byte == b'-')
        && name[length..].iter().all(|&byte| byte == 0)
}

fn letters(name: &[u8; 16]) -> &[u8] {
    &name[..name_length(name)]
}

/// WRITE: the canonical form, in which rows and names follow the header in this order
/// without a gap. It is of version 1 where that holds all there is to say.
pub fn form(tasks: &[Task]) -> Vec<u8> {
    let n = tasks.len() as u64;
    let plain = tasks.iter().all(|task| task.blocking == 0 && task.jitter == 0);
    let (version, fields) = if plain { (1, 5) } else { (2, 7) };
    let names = 16 + 4 * fields as u64 * n;
    let mut form = Vec::new();
    let mut append = |value: u64, width: usize| form.extend((0..width).map(|k| (value >> (8 * k)) as u8));
    append(version, 2);
    append(n, 2);
    append(16, 4);
    append(names, 4);
    append(names + 16 * n, 4);
    for task in tasks {
        task.fields()[..fields].iter().for_each(|&field| append(field, 4));
    }
    for task in tasks {
        let name = letters(&task.name);
        form.extend(name);
        form.extend(vec![0; 16 - name.len()]);
    }
    form
}

fn deadline(task: &Task, period: u64) -> u64 {
    period.min(task.deadline_cap)
}

/// What task i asks for by time t, with the work of those above it: each comes up as
/// often as it would without its jitter in a time longer by that. Their own blocking is
/// no work of theirs, and the jitter of task i is no work of its own.
fn demand(tasks: &[Task], periods: &[u64], i: usize, t: u64) -> u64 {
    let above: u64 = (0..i).map(|j| tasks[j].wcet * (t + tasks[j].jitter).div_ceil(periods[j])).sum();
    tasks[i].own_demand() + above
}

/// The least t from 1 on that covers its own demand, plus the jitter of task i; none
/// past the deadline. Demand never falls as t grows, so no t between one and its demand
/// covers its own: the climb passes none by.
pub fn response_time(tasks: &[Task], periods: &[u64], i: usize) -> Option<u64> {
    let deadline = deadline(&tasks[i], periods[i]);
    let mut t = tasks[i].own_demand();
    while t + tasks[i].jitter <= deadline {
        let needed = demand(tasks, periods, i, t);
        if needed <= t {
            return Some(t + tasks[i].jitter);
        }
        t = needed;
    }
    None
}

/// The same by its definition: every t in turn.
pub fn response_time_by_scan(tasks: &[Task], periods: &[u64], i: usize) -> Option<u64> {
    let deadline = deadline(&tasks[i], periods[i]);
    let least = (1..=deadline).find(|&t| demand(tasks, periods, i, t) <= t)?;
    Some(least + tasks[i].jitter).filter(|&time| time <= deadline)
}

fn first_late(tasks: &[Task], periods: &[u64]) -> Option<usize> {
    (0..tasks.len()).find(|&i| response_time(tasks, periods, i).is_none())
}

/// The lowest task first: it is mostly the late one.
pub fn schedulable(tasks: &[Task], periods: &[u64]) -> bool {
    (0..tasks.len()).rev().all(|i| response_time(tasks, periods, i).is_some())
}

/// A listed assignment. The derived order is that of the search: cost, then the
/// first period, then the second, and so on.
#[derive(Clone, Debug, PartialEq, Eq, PartialOrd, Ord)]
pub struct Node {
    pub cost: u64,
    pub periods: Vec<u64>,
}

pub fn node(tasks: &[Task], periods: Vec<u64>) -> Node {
    let cost = tasks.iter().zip(&periods).map(|(task, period)| task.weight * period).sum();
    Node { cost, periods }
}

fn dominates(one: &[u64], other: &[u64]) -> bool {
    one.iter().zip(other).all(|(a, b)| a >= b)
}

/// From an unschedulable assignment: each period in turn raised to the greatest
/// value that leaves the whole unschedulable. Raising a period never makes a
/// schedulable assignment late, so bisection finds that value.
fn mua(tasks: &[Task], periods: &[u64]) -> Vec<u64> {
    let mut mua = periods.to_vec();
    for i in 0..tasks.len() {
        let mut late = mua[i];
        let mut beyond = tasks[i].period_max + 1;
        while beyond - late > 1 {
            let middle = late + (beyond - late) / 2;
            mua[i] = middle;
            if schedulable(tasks, &mua) {
                beyond = middle;
            } else {
                late = middle;
            }
        }
        mua[i] = late;
    }
    mua
}

pub fn highest(tasks: &[Task]) -> Vec<u64> {
    tasks.iter().map(|task| task.period_max).collect()
}

/// From the highest periods, which are schedulable: each in turn lowered to the
/// least value, not below the node's, that leaves the whole schedulable. Bisection
/// finds it, as above.
pub fn lowering(tasks: &[Task], node: &[u64]) -> Vec<u64> {
    let mut lowered = highest(tasks);
    for i in 0..tasks.len() {
        lowered[i] = node[i];
        if schedulable(tasks, &lowered) {
            continue;
        }
        let mut late = node[i];
        let mut on_time = tasks[i].period_max;
        while on_time - late > 1 {
            let middle = late + (on_time - late) / 2;
            lowered[i] = middle;
            if schedulable(tasks, &lowered) {
                on_time = middle;
            } else {
                late = middle;
            }
        }
        lowered[i] = on_time;
    }
    lowered
}

/// The outcome with periods and cost: an answer's of the schedulable node, a stop's of
/// the incumbent.
fn concluded(outcome: Outcome, node: Node) -> Outcome {
    Outcome { cost: node.cost, periods: node.periods, ..outcome }
}

/// CHEAPEST with a work space of `space` numbers, at least n.
pub fn search(tasks: &[Task], budget: u64, space: u64) -> Outcome {
    let mut outcome = Outcome { n: tasks.len() as u32, ..Outcome::default() };
    let alone = |task: &Task| task.own_demand() + task.jitter > deadline(task, task.period_max);
    if let Some(i) = tasks.iter().position(alone) {
        return Outcome { number: 31, place: i as u32 + 1, ..outcome };
    }
    if let Some(i) = first_late(tasks, &highest(tasks)) {
        return Outcome { number: 32, place: i as u32 + 1, ..outcome };
    }
    let room = space / tasks.len() as u64;
    let mut open = vec![node(tasks, tasks.iter().map(|task| task.period_min).collect())];
    let mut incumbent = node(tasks, highest(tasks));
    while outcome.rounds < budget {
        let least = (0..open.len()).min_by_key(|&k| &open[k]).expect("an open node");
        let taken = open.swap_remove(least);
        outcome.rounds += 1;
        if schedulable(tasks, &taken.periods) {
            return concluded(outcome, taken);
        }
        incumbent = incumbent.min(node(tasks, lowering(tasks, &taken.periods)));
        let mua = mua(tasks, &taken.periods);
        let mut children = Vec::new();
        for i in 0..tasks.len() {
            if mua[i] < tasks[i].period_max {
                let mut child = taken.periods.clone();
                child[i] = mua[i] + 1;
                if !open.iter().any(|listed| dominates(&child, &listed.periods)) {
                    children.push(node(tasks, child));
                }
            }
        }
        if (open.len() + children.len()) as u64 > room {
            return concluded(Outcome { number: 34, bound: taken.cost, ..outcome }, incumbent);
        }
        open.append(&mut children);
    }
    let least = open.iter().min().expect("an open node");
    concluded(Outcome { number: 33, bound: least.cost, ..outcome }, incumbent)
}

/// What DESK writes into a block of 100 bytes.
pub fn desk(file: &[u8], budget: u64) -> Outcome {
    match read(file) {
        Ok(tasks) => search(&tasks, budget, WORK_SPACE),
        Err((number, place)) => Outcome { number, place, ..Outcome::default() },
    }
}

pub fn block(outcome: &Outcome) -> [u8; 100] {
    let mut block = [0; 100];
    block[0..4].copy_from_slice(&outcome.number.to_le_bytes());
    block[4..8].copy_from_slice(&outcome.place.to_le_bytes());
    block[8..16].copy_from_slice(&outcome.cost.to_le_bytes());
    block[16..24].copy_from_slice(&outcome.rounds.to_le_bytes());
    block[24..32].copy_from_slice(&outcome.bound.to_le_bytes());
    block[32..36].copy_from_slice(&outcome.n.to_le_bytes());
    for (i, period) in outcome.periods.iter().enumerate() {
        block[36 + 4 * i..40 + 4 * i].copy_from_slice(&(*period as u32).to_le_bytes());
    }
    block
}

/// What a program takes of its standard input.
fn taken(input: &[u8]) -> &[u8] {
    &input[..input.len().min(PROGRAM_READS)]
}

pub fn refusal_line((number, place): Refusal) -> String {
    format!("refused {number} {place}\n")
}

/// What program `planform` writes for these bytes on its standard input: a form to
/// standard output, or else the refusal's line to standard error.
pub fn planform(input: &[u8]) -> Result<Vec<u8>, Refusal> {
    read(taken(input)).map(|tasks| form(&tasks))
}

/// What program `timetable` prints for these bytes on its standard input.
pub fn listing(input: &[u8]) -> String {
    let tasks = match read(taken(input)) {
        Ok(tasks) => tasks,
        Err(refusal) => return refusal_line(refusal),
    };
    listing_of(&tasks, &search(&tasks, LISTING_BUDGET, WORK_SPACE))
}

/// A stop's line ends with the incumbent's cost.
pub fn listing_of(tasks: &[Task], outcome: &Outcome) -> String {
    let &Outcome { number, place, cost, rounds, bound, .. } = outcome;
    match number {
        0 => format!("cost {cost} rounds {rounds}\n") + &lines(tasks, &outcome.periods),
        33 | 34 => format!("refused {number} {place} bound {bound} rounds {rounds} best {cost}\n"),
        _ => refusal_line((number, place)),
    }
}

/// One line a task, in order: name, period, response time.
fn lines(tasks: &[Task], periods: &[u64]) -> String {
    let line = |i: usize| {
        let name = std::str::from_utf8(letters(&tasks[i].name)).expect("a name that was read");
        let time = response_time(tasks, periods, i).expect("an answer's tasks are on time");
        format!("{name} {} {time}\n", periods[i])
    };
    (0..tasks.len()).map(line).collect()
}

// Who feeds whom.

const LIST_MAX: usize = 240;

/// The feeders of a job, by following the pairs upwards until nobody new is met.
fn feeders_of(pairs: &[(u8, u8)], job: u8) -> BTreeSet<u8> {
    let mut feeders = BTreeSet::new();
    let mut readers = vec![job];
    while let Some(reader) = readers.pop() {
        for &(feeder, _) in pairs.iter().filter(|pair| pair.1 == reader) {
            if feeders.insert(feeder) {
                readers.push(feeder);
            }
        }
    }
    feeders
}

/// FEEDERS of n jobs: their counts, and the first pair that is upside down, or 0.
fn count_feeders(n: usize, list: &[u8]) -> Result<(Vec<usize>, usize), Refusal> {
    if list.len() % 2 == 1 || list.len() > LIST_MAX {
        return Err((61, 0));
    }
    let pairs: Vec<_> = list.chunks(2).map(|pair| (pair[0], pair[1])).collect();
    let is_job = |number: u8| (1..=n).contains(&usize::from(number));
    if let Some(at) = pairs.iter().position(|&(feeder, reader)| !is_job(feeder) || !is_job(reader)) {
        return Err((62, at as u32 + 1));
    }
    let counts = (1..=n).map(|job| feeders_of(&pairs, job as u8).len()).collect();
    let upside_down = pairs.iter().position(|&(feeder, reader)| feeder >= reader);
    Ok((counts, upside_down.map_or(0, |at| at + 1)))
}

/// What program `feeders` prints of a plan file and a list of pairs: one line a job,
/// with its name and its count, and the pair.
pub fn feeders(file: &[u8], list: &[u8]) -> String {
    let answer = read(taken(file)).and_then(|tasks| count_feeders(tasks.len(), list).map(|counted| (tasks, counted)));
    let (tasks, (counts, pair)) = match answer {
        Ok(answer) => answer,
        Err(refusal) => return refusal_line(refusal),
    };
    let line = |(task, count): (&Task, usize)| {
        let name = std::str::from_utf8(letters(&task.name)).expect("a name that was read");
        format!("{name} {count}\n")
    };
    let lines: String = tasks.iter().zip(counts).map(line).collect();
    lines + &format!("pair {pair}\n")
}
