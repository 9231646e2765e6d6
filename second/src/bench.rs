//! The rows of the benchmark: each is a few calls that both programs answer while bench/run holds the clock.

use crate::calls::component_text;
use crate::numbers::{Capacity, Component, Table, Task};

/// A row: its name, the component of its calls, and how often each call stands in the file.
pub struct Row {
    pub name: &'static str,
    period: u32,
    capacity: u32,
    deadline: u32,
    tasks: Vec<(u32, u32, u32)>,
    times: usize,
}

/// Tasks whose periods are taken in turn from a list, each with the same share of its period as work.
fn spread(count: usize, periods: &[u32], share: u32) -> Vec<(u32, u32, u32)> {
    (0..count)
        .map(|place| {
            let period = periods[place * 7 % periods.len()];
            (period, (period / share).max(1), period - period / 8)
        })
        .collect()
}

/// The divisors of 720,720 from 1,001 on.
fn divisors() -> Vec<u32> {
    (1_001..=720_720).filter(|divisor| 720_720 % divisor == 0).collect()
}

pub fn rows() -> Vec<Row> {
    let powers: Vec<u32> = (10..=20).map(|exponent| 1 << exponent).collect();
    let divisors = divisors();
    let row = |name, period, capacity, deadline, tasks, times| Row { name, period, capacity, deadline, tasks, times };
    vec![
        row("1 task, powers of two", 64, 40, 48, vec![(1 << 20, 1 << 18, 1 << 19)], 20),
        row("8 tasks, powers of two", 64, 40, 48, spread(8, &powers, 40), 20),
        row("64 tasks, powers of two", 64, 40, 48, spread(64, &powers, 300), 5),
        row("1 task, divisors of 720,720", 720, 500, 600, vec![(720_720, 200_000, 500_000)], 20),
        row("8 tasks, divisors of 720,720", 720, 500, 600, spread(8, &divisors, 40), 20),
        row("64 tasks, divisors of 720,720", 720, 500, 600, spread(64, &divisors, 200), 5),
        row("64 tasks of T 64, every instant a step", 1 << 20, 1 << 20, 1 << 20, (1..=64).map(|due| (64, 1, due)).collect(), 5),
        row("1 task, Π a million", 1_000_000, 20, 20, vec![(1_000_000, 12, 1_000_000)], 20),
        row("8 tasks, Π a million", 1_000_000, 20, 20, (1..=8).map(|part| (1_000_000, part % 2 + 1, 1_000_000)).collect(), 20),
    ]
}

/// The kinds of call that a row is measured at.
pub const KINDS: [&str; 2] = ["judge", "capacity"];

/// The calls of a row at one kind: judged at the stated capacity, the smallest capacity where it is asked. To judge, the plain search goes
/// through the instants once for the first short one and once more for the margin, as the rules say them one by one; a plain search that
/// carries both in one loop would take half of that time or more.
pub fn calls(row: &Row, kind: &str) -> String {
    let capacity = if kind == "capacity" { Capacity::Asked } else { Capacity::Stated(row.capacity) };
    let tasks = row.tasks.iter().map(|&(period, work, deadline)| Task::new(period, work, deadline)).collect();
    let call = format!("{kind} {}\n", component_text(&Component::new(1, capacity, row.period, row.deadline, Table::new(tasks))));
    // the plain search for a capacity goes through the instants once for each capacity that it tries
    call.repeat(if kind == "capacity" { (row.times / 10).max(1) } else { row.times })
}

/// The longest walk there is: 1,024 jobs over 65,536 slots, of which two in three are supplied.
pub fn walk() -> String {
    let jobs = 1_024u32;
    let column = |of: &dyn Fn(u32) -> u32| {
        (0..jobs).fold(jobs.to_string(), |list, job| list + " " + &of(job).to_string())
    };
    let trace: String = (0..65_536).map(|slot| if slot % 3 == 0 { "00" } else { "01" }).collect();
    // 8 tasks of period 512, deadline 512 and work 40, each released every 512 slots
    let tasks = " 512 40 512 0".repeat(8);
    let releases = column(&|job| job / 8 * 512);
    format!("walk 8{tasks} {} {releases} {releases} {} {trace} {jobs}\n", column(&|job| job % 8), column(&|job| job % 40 + 1))
}
