// A planner of the same rules in plain Rust, for the benchmark: it reads valid texts without entities and seeks seats in a
// box of 16 processors under ceilings, as often as its argument says. Build by `rustc -O`.
use std::{env, fs};

struct Task {
    before: u64,
    critical: u64,
    after: u64,
    period: u64,
    resource: Option<usize>,
}

const PROCESSORS: usize = 16;

fn read() -> (usize, Vec<Task>) {
    let resources = fs::read_to_string("resources.txt").unwrap();
    let names: Vec<&str> = resources.lines().map(|l| l.split(' ').nth(1).unwrap()).collect();
    let text = fs::read_to_string("tasks.txt").unwrap();
    let mut tasks: Vec<Task> = text
        .lines()
        .map(|l| {
            let f: Vec<&str> = l.split(' ').collect();
            let figure = |i: usize| f[i].parse::<u64>().unwrap();
            Task {
                before: figure(2),
                critical: figure(3),
                after: figure(4),
                period: figure(5),
                resource: names.iter().position(|n| *n == f[6]),
            }
        })
        .collect();
    tasks.sort_by_key(|t| t.period);
    (names.len(), tasks)
}

// The least t from 1 to the limit that is no less than the base and what the terms take within t.
fn least(base: u64, terms: &[(u64, u64)], limit: u64) -> Option<u64> {
    let mut t = 1;
    while t <= limit {
        let need = base + terms.iter().map(|(period, length)| t.div_ceil(*period) * length).sum::<u64>();
        if need <= t {
            return Some(t);
        }
        t = need;
    }
    None
}

fn spread(loads: &[u64], syncs: usize) -> Vec<usize> {
    let mut sites = vec![PROCESSORS - syncs; loads.len()];
    let mut seated = vec![false; loads.len()];
    let mut sums = vec![0u64; syncs];
    for _ in 0..loads.len() {
        let heaviest = (0..loads.len()).filter(|i| !seated[*i]).rev().max_by_key(|i| loads[*i]).unwrap();
        let lightest = (0..syncs).min_by_key(|p| sums[*p]).unwrap();
        sites[heaviest] = PROCESSORS - syncs + lightest;
        seated[heaviest] = true;
        sums[lightest] += loads[heaviest];
    }
    sites
}

fn critical_bound(tasks: &[Task], sites: &[usize], ceilings: &[usize], rank: usize) -> Option<u64> {
    let task = &tasks[rank];
    let Some(resource) = task.resource else { return Some(0) };
    let here = |t: &Task| t.resource.is_some_and(|r| sites[r] == sites[resource]);
    let blocking = tasks[rank + 1..]
        .iter()
        .filter(|t| here(t) && ceilings[t.resource.unwrap()] <= rank)
        .map(|t| t.critical)
        .max()
        .unwrap_or(0);
    let terms: Vec<(u64, u64)> = tasks[..rank].iter().filter(|t| here(t)).map(|t| (t.period, t.critical)).collect();
    least(blocking + task.critical, &terms, task.period)
}

fn outer_bound(length: u64, terms: &[(u64, u64)], period: u64) -> Option<u64> {
    if length == 0 { Some(0) } else { least(length, terms, period) }
}

// The sum of all bounds, or the rank of the task that is late.
fn attempt(tasks: &[Task], sites: &[usize], ceilings: &[usize], syncs: usize) -> Result<u64, u64> {
    let mut homes: Vec<usize> = Vec::new();
    let mut sum = 0;
    'tasks: for (rank, task) in tasks.iter().enumerate() {
        let Some(critical) = critical_bound(tasks, sites, ceilings, rank) else { return Err(rank as u64) };
        for p in 0..PROCESSORS - syncs {
            let terms: Vec<(u64, u64)> = (0..rank)
                .filter(|i| homes[*i] == p)
                .map(|i| (tasks[i].period, tasks[i].before + tasks[i].after))
                .collect();
            let Some(before) = outer_bound(task.before, &terms, task.period) else { continue };
            let Some(after) = outer_bound(task.after, &terms, task.period) else { continue };
            if before + critical + after <= task.period {
                homes.push(p);
                sum += before + critical + after;
                continue 'tasks;
            }
        }
        return Err(rank as u64);
    }
    Ok(sum)
}

fn place(resources: usize, tasks: &[Task]) -> u64 {
    let ceilings: Vec<usize> =
        (0..resources).map(|r| tasks.iter().position(|t| t.resource == Some(r)).unwrap_or(64)).collect();
    let loads: Vec<u64> = (0..resources)
        .map(|r| tasks.iter().filter(|t| t.resource == Some(r)).map(|t| (1_000_000 * t.critical).div_ceil(t.period)).sum())
        .collect();
    let mut last = 0;
    for syncs in resources.min(1)..=resources.min(PROCESSORS - 1) {
        match attempt(tasks, &spread(&loads, syncs), &ceilings, syncs) {
            Ok(sum) => return sum,
            Err(rank) => last = rank,
        }
    }
    last
}

fn main() {
    let (resources, tasks) = read();
    let count: u64 = env::args().nth(1).map_or(1, |a| a.parse().unwrap());
    let mut total = 0;
    for _ in 0..count {
        total += place(resources, std::hint::black_box(&tasks));
    }
    println!("places {count} outcome {total}");
}
