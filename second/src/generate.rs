//! Calls made by chance: in range and out of range, legal and damaged, small and at the ends of each range.

use crate::calls::{component_text, jobs_text, plain_text, row_text, table_text, task_text};
use crate::chance::Chance;
use crate::demand::demand;
use crate::nested::{self, Made};
use crate::numbers::{Capacity, Component, Interface, Table, Task, LIMIT, TASKS};
use crate::run::{Job, Jobs};
use crate::stored::{self, held};
use crate::supply::supply;
use crate::tree::with_tasks;
use crate::{calls, host, sheet, trace};

/// The kinds of call.
pub const KINDS: [&str; 28] = [
    "check_task",
    "check_table",
    "check_interface",
    "check_component",
    "common_divisor",
    "common_period",
    "demand",
    "supply",
    "add_task",
    "remove_task",
    "make",
    "edit",
    "legal",
    "walk",
    "judge",
    "capacity",
    "sheet",
    "part",
    "read",
    "write",
    "write_end",
    "read_pair",
    "write_pair",
    "workload",
    "tree",
    "host",
    "host_check",
    "host_all",
];

/// A call of a kind, or nothing where there is no such kind.
pub fn call(c: &mut Chance, kind: &str) -> Option<String> {
    let rest = match kind {
        "check_task" => task_text(&damaged_task(c)),
        "check_table" => table_text(&given_table(c)),
        "check_interface" => interface_text(&given_interface(c)),
        "check_component" | "common_period" => component_text(&given_component(c)),
        "common_divisor" => format!("{} {}", any_number(c), any_number(c)),
        "demand" => {
            let table = given_table(c);
            format!("{} {}", table_text(&table), instant(c))
        }
        "supply" => format!("{} {}", interface_text(&given_interface(c)), instant(c)),
        "add_task" => {
            let component = given_component(c);
            let task = if c.one_in(6) { stored::far_task(c) } else { given_task(c) };
            format!("{} {}", component_text(&component), task_text(&task))
        }
        "remove_task" => {
            let component = given_component(c);
            format!("{} {}", component_text(&component), place(c, component.table.count))
        }
        "make" => plain_text(&some_component(c)),
        "edit" => edit(c),
        "legal" => legal(c),
        "walk" => walk(c),
        "judge" => component_text(&held(perhaps_tight_late(c), c)),
        "capacity" => component_text(&held(searched(judged_component(c)), c)),
        "sheet" => row_text(&given_sheet(c)),
        "part" | "read" => {
            let made = made_sheet(c);
            format!("{} {}", row_text(&made.bytes), place(c, made.components))
        }
        "workload" | "tree" => {
            let made = nested_sheet(c);
            format!("{} {}", row_text(&made.bytes), place(c, made.components))
        }
        "read_pair" => {
            let made = nested_sheet(c);
            format!("{} {}", row_text(&made.bytes), place(c, made.pairs))
        }
        "write" => {
            let component = given_component(c);
            room(c, &component_text(&component), sheet::component_bytes(&component).len() as u64)
        }
        "write_end" => {
            let count = c.pick(&[0, 1, 2, 255, 256, 257, 65_535, 65_536, 1 << 32, u64::MAX]);
            room(c, &count.to_string(), 6)
        }
        "write_pair" => {
            let numbers = [0, 1, 2, 255, 256, 65_534, 65_535, c.below(1 << 16)];
            let pair = format!("{} {}", c.pick(&numbers), c.pick(&numbers));
            room(c, &pair, 8)
        }
        "host" => {
            let made = made_sheet(c);
            let chosen = place(c, made.components);
            room(c, &format!("{} {chosen}", row_text(&made.bytes)), host::REPLY as u64)
        }
        "host_check" => {
            let row = given_sheet(c);
            room(c, &row_text(&row), host::HEAD as u64)
        }
        "host_all" => {
            let made = nested_sheet(c);
            room(c, &row_text(&made.bytes), host::HEAD as u64 + host::ENTRY as u64 * made.components)
        }
        _ => return None,
    };
    Some(format!("{kind} {rest}"))
}

fn interface_text(interface: &Interface) -> String {
    format!("{} {} {}", interface.period, interface.capacity, interface.deadline)
}

/// A number at the end of a range, or anywhere.
fn odd_number(c: &mut Chance) -> u32 {
    match c.below(3) {
        0 => c.pick(&[0, 1, 2, 1_048_575, 1_048_576, 1_048_577, 2_147_483_647, 2_147_483_648, 4_294_967_294, u32::MAX]),
        1 => c.below(20) as u32,
        _ => c.next() as u32,
    }
}

fn any_number(c: &mut Chance) -> u32 {
    match c.below(3) {
        0 => odd_number(c),
        1 => c.between(0, 64) as u32,
        _ => c.between(0, LIMIT) as u32,
    }
}

fn instant(c: &mut Chance) -> u32 {
    match c.below(8) {
        0 => odd_number(c),
        1 => c.between(0, LIMIT) as u32,
        _ => c.below(60) as u32,
    }
}

/// A size of time: mostly small, so that what is made of it meets often.
fn size(c: &mut Chance) -> u32 {
    match c.below(12) {
        0 => c.between(1, LIMIT) as u32,
        1 => 1 << c.below(21),
        2 | 3 => c.between(1, 1_000) as u32,
        _ => c.between(1, 12) as u32,
    }
}

fn task_within(c: &mut Chance, period: u32) -> Task {
    let deadline = if c.one_in(3) { period } else { c.between(1, period as u64) as u32 };
    let work = if c.one_in(4) { c.between(1, deadline as u64) } else { c.between(1, 1 + deadline as u64 / 4) } as u32;
    let work = work.min(deadline);
    let lateness = lateness(c, deadline - work);
    Task::new(period, work, deadline).late(lateness)
}

/// A lateness up to the largest: often none, else a little, the largest or any.
fn lateness(c: &mut Chance, largest: u32) -> u32 {
    match c.below(8) {
        0 => largest,
        1 | 2 => c.between(0, largest.min(3) as u64) as u32,
        3 => c.between(0, largest as u64) as u32,
        _ => 0,
    }
}

fn task(c: &mut Chance) -> Task {
    let period = size(c);
    task_within(c, period)
}

fn damage_task(c: &mut Chance, task: &mut Task) {
    let value = odd_number(c);
    match c.below(9) {
        0 => task.period = value,
        1 => task.work = value,
        2 => task.deadline = value,
        3 => task.deadline = task.period.wrapping_add(1),
        4 => task.work = task.deadline.wrapping_add(1),
        5 => task.work = 0,
        6 => task.lateness = value,
        7 => task.lateness = task.deadline - task.work + 1,
        _ => task.lateness = c.pick(&[task.deadline, task.period, u32::MAX - 1, u32::MAX]).max(task.deadline - task.work + 1),
    }
}

fn damaged_task(c: &mut Chance) -> Task {
    let mut made = task(c);
    if c.one_in(2) {
        damage_task(c, &mut made);
    }
    made
}

fn given_task(c: &mut Chance) -> Task {
    let mut made = task(c);
    if c.one_in(8) {
        damage_task(c, &mut made);
    }
    made
}

/// A table that is sometimes empty, full or over-full, and sometimes has a task out of range.
fn given_table(c: &mut Chance) -> Table {
    let count = match c.below(16) {
        0 => c.pick(&[65, 66, 70, 1 << 32, u64::MAX]),
        1 => c.pick(&[0, 63, 64]),
        2 => c.below(65),
        _ => c.below(6),
    };
    let mut tasks: Vec<Task> = (0..count.min(64)).map(|_| task(c)).collect();
    if c.one_in(6) && !tasks.is_empty() {
        let chosen = c.below(tasks.len() as u64) as usize;
        damage_task(c, &mut tasks[chosen]);
    }
    Table { count, tasks }
}

fn interface(c: &mut Chance) -> Interface {
    let period = size(c);
    let deadline = if c.one_in(3) { period } else { c.between(1, period as u64) as u32 };
    let capacity = match c.below(6) {
        0 => 0,
        1 => deadline,
        _ => c.between(0, deadline as u64) as u32,
    };
    Interface::new(period, capacity, deadline)
}

fn given_interface(c: &mut Chance) -> Interface {
    let mut made = interface(c);
    if c.one_in(4) {
        let value = odd_number(c);
        match c.below(6) {
            0 => made.period = value,
            1 => made.capacity = value,
            2 => made.deadline = value,
            3 => made.capacity = made.deadline.wrapping_add(1),
            4 => made.deadline = made.period.wrapping_add(1),
            _ => made.deadline = 0,
        }
    }
    made
}

fn component_of(c: &mut Chance, interface: Interface, table: Table) -> Component {
    let number = match c.below(4) {
        0 => c.pick(&[0, 1, 65_534, 65_535]),
        _ => c.below(1 << 16) as u16,
    };
    let capacity = if c.one_in(2) { Capacity::Asked } else { Capacity::Stated(interface.capacity) };
    Component::new(number, capacity, interface.period, interface.deadline, table)
}

/// A component in range or out of it, with the right common period stored where there is one.
fn some_component(c: &mut Chance) -> Component {
    if c.one_in(8) {
        return stored::about_the_limit(c);
    }
    let interface = given_interface(c);
    let table = given_table(c);
    component_of(c, interface, table)
}

fn given_component(c: &mut Chance) -> Component {
    held(some_component(c), c)
}

/// The component with a deadline small enough for the plain search over every capacity and every instant.
fn searched(component: Component) -> Component {
    let common = match component.common_period() {
        Ok(common) => common,
        Err(_) => return component,
    };
    let deadline = (component.deadline as u64).min((4_000_000 / common).max(1)) as u32;
    let capacity = match component.capacity {
        Capacity::Stated(units) => Capacity::Stated(units.min(deadline)),
        Capacity::Asked => Capacity::Asked,
    };
    Component { deadline, capacity, ..component }
}

/// A component to be judged: mostly one whose common period divides a chosen number.
fn judged_component(c: &mut Chance) -> Component {
    let made = if c.one_in(10) { some_component(c) } else { dividing_component(c) };
    if made.capacity == Capacity::Asked { searched(made) } else { made }
}

/// A component to be judged; now and then with one more task, whose only job up to L is due at the others' last step instant or behind it and
/// takes what supply has left there, or a unit less or more. So it may be tight, or short, late and not before.
fn perhaps_tight_late(c: &mut Chance) -> Component {
    let made = judged_component(c);
    let common = made.common_period().unwrap_or(LIMIT);
    if !c.one_in(4) || common > 2_000 || made.table.count >= TASKS {
        return made;
    }
    let capacity = match made.capacity {
        Capacity::Stated(units) => units,
        Capacity::Asked => c.between(0, made.deadline as u64) as u32,
    };
    let last = made.table.tasks.iter().map(|task| common - (task.period - task.span()) as u64).max().unwrap_or(1);
    let between = c.between(last, common);
    let due = c.pick(&[last, between, common]);
    let left = supply(&made.interface(capacity), due) as i64 - demand(&made.table, due) as i64;
    let work = left + c.pick(&[-1, 0, 1, 1]);
    if work < 1 || work > due as i64 {
        return made;
    }
    let lateness = c.pick(&[0, 0, common - due]);
    with_tasks(&made, [Task::new(common as u32, work as u32, (due + lateness) as u32).late(lateness as u32)])
}

fn dividing_component(c: &mut Chance) -> Component {
    let common: u32 = match c.below(100) {
        0 => c.pick(&[1_048_576, 720_720, 1_000_000, 1_048_574]),
        1..=4 => c.pick(&[5_040, 27_720, 65_536, 30_030]),
        _ => c.pick(&[1, 6, 12, 24, 30, 48, 60, 84, 120, 210, 360, 420, 840]),
    };
    let divisors: Vec<u32> = (1..=common.min(2_000)).filter(|d| common % d == 0).chain([common]).collect();
    let small: Vec<u32> = divisors.iter().copied().filter(|&d| d <= 64).collect();
    let period = if common > 1_000 { c.pick(&small) } else { c.pick(&divisors) };
    let deadline = if c.one_in(2) { period } else { c.between(1, period as u64) as u32 };
    let capacity = if c.one_in(8) { deadline } else { c.between(0, deadline as u64) as u32 };
    let count = match c.below(30) {
        0 if common <= 5_040 => 64,
        1..=3 => 0,
        _ => c.between(1, 5),
    };
    let tasks = (0..count).map(|_| {
        let own = c.pick(&divisors);
        let mut made = task_within(c, own);
        if c.one_in(2) {
            made.work = made.work.min(1 + own / (count as u32 * 2 + 1));
        }
        made
    });
    let table = Table::new(tasks.collect());
    component_of(c, Interface::new(period, capacity, deadline), table)
}

/// A place among so many: mostly one of them, else just past them or far off.
fn place(c: &mut Chance, count: u64) -> u64 {
    match c.below(8) {
        0 => count.min(300),
        1 => c.pick(&[0, 1, 63, 64, 65, 255, 256, 1 << 32, u64::MAX]),
        _ if count > 0 => c.below(count.min(300)),
        _ => 0,
    }
}

/// A call's words with a buffer's length and a place: room enough, just enough, one byte too few, or none.
fn room(c: &mut Chance, words: &str, need: u64) -> String {
    let at = c.pick(&[0, 1, 2, 7, 40]);
    let length = match c.below(10) {
        0 => (at + need).saturating_sub(1),
        1 => c.below(need + 2),
        2 => at,
        3 => 0,
        4 => at + need,
        _ => at + need + c.below(20),
    };
    let at = match c.below(12) {
        0 => length,
        1 => length + 1,
        2 => u64::MAX,
        _ => at,
    };
    format!("{words} {} {at}", length.min(calls::BUFFER))
}

fn bits(c: &mut Chance, length: u64) -> Vec<u8> {
    let density = c.pick(&[1, 2, 4]);
    (0..length).map(|_| c.one_in(density) as u8).collect()
}

/// A trace near the border of legality: the worst one, sometimes with a slot turned or at another offset, or by chance.
fn near_trace(c: &mut Chance, interface: &Interface, length: u64) -> (u64, Vec<u8>) {
    if interface.check().is_err() {
        return (c.below(4), bits(c, length));
    }
    if c.one_in(3) {
        return (c.below(interface.period as u64), bits(c, length));
    }
    let (mut offset, mut row) = trace::worst(interface, length);
    if c.one_in(3) && !row.is_empty() {
        let slot = c.below(row.len() as u64) as usize;
        row[slot] ^= 1;
    }
    match c.below(6) {
        0 => offset = c.below(interface.period as u64),
        1 => offset = interface.period as u64 - 1,
        _ => {}
    }
    (offset, row)
}

fn trace_length(c: &mut Chance) -> u64 {
    match c.below(400) {
        0 => c.pick(&[65_535, 65_536, 65_537]),
        1..=5 => c.below(3_000),
        _ => c.below(50),
    }
}

fn damage_trace(c: &mut Chance, row: &mut [u8]) {
    if c.one_in(12) && !row.is_empty() {
        let slot = c.below(row.len() as u64) as usize;
        row[slot] = c.pick(&[2, 3, 128, 255]);
    }
}

fn legal(c: &mut Chance) -> String {
    let mut interface = given_interface(c);
    if c.one_in(2) {
        interface = Interface::new(6, 2, 4);
    }
    let length = trace_length(c);
    let (mut offset, mut row) = near_trace(c, &interface, length);
    damage_trace(c, &mut row);
    if c.one_in(10) {
        offset = c.pick(&[interface.period as u64, interface.period as u64 + 1, u32::MAX as u64]).min(u32::MAX as u64);
    }
    format!("{} {offset} {}", interface_text(&interface), row_text(&row))
}

/// Legal arrivals of a table over so many slots: the first job of a task may be released up to J slots before slot 0, and each job is
/// ready as early as it may be, as late, or between.
fn arrivals(c: &mut Chance, table: &Table, slots: u64) -> Vec<Job> {
    let mut all = vec![];
    for (number, task) in table.tasks.iter().enumerate() {
        let lateness = task.lateness as i64;
        let mut release = match c.below(4) {
            0 => 0,
            1 => -lateness,
            2 => c.below(8) as i64,
            _ => c.below(lateness as u64 + 8) as i64 - lateness,
        };
        let manner = c.below(4);
        while release < slots as i64 && all.len() < 1_200 {
            let work = if c.one_in(2) { task.work as u64 } else { c.between(1, task.work.max(1) as u64) } as u32;
            let (earliest, latest) = (release.max(0) as u64, (release + lateness) as u64);
            let ready = match manner {
                0 => earliest,
                1 => latest,
                _ => c.between(earliest, latest),
            };
            all.push(Job { release, task: number as u32, ready, work });
            release += task.period.max(1) as i64 + if c.one_in(3) { c.below(5) as i64 } else { 0 };
        }
    }
    all.sort();
    all
}

/// The job later by so many slots, its readiness with it as far as slot 0.
fn moved(job: Job, slots: i64) -> Job {
    Job { release: job.release + slots, ready: (job.ready as i64 + slots).max(0) as u64, ..job }
}

/// Breaks a rule of the run, or comes close to it.
fn damage_jobs(c: &mut Chance, table: &Table, slots: u64, jobs: &mut [Job]) {
    if jobs.is_empty() {
        return;
    }
    let chosen = c.below(jobs.len() as u64) as usize;
    let job = jobs[chosen];
    let task = table.tasks.get(job.task as usize).copied().unwrap_or(Task::new(1, 1, 1));
    let lateness = task.lateness as i64;
    match c.below(15) {
        0 => jobs[chosen] = moved(job, c.pick(&[1, 2, 60, 70_000])),
        1 => jobs[chosen].task = c.pick(&[0, 1, 2, 63, 64, 65, u32::MAX]),
        2 => jobs[chosen].work = c.pick(&[0, 1, 2, 5, u32::MAX]),
        3 => jobs.swap(0, chosen),
        4 => jobs[chosen] = moved(job, -1),
        5 => jobs[chosen].work += 1,
        6 | 7 => jobs[chosen].ready = (job.release + lateness + 1).max(0) as u64,
        8 => jobs[chosen].ready = c.pick(&[job.release - 1, 0, job.release, job.release + lateness]).max(0) as u64,
        9 => jobs[chosen].ready = c.pick(&[0, 1 << 31, u32::MAX as u64 - 1, u32::MAX as u64]),
        10 => jobs[0] = Job { release: c.pick(&[-lateness - 1, -lateness - 1, -lateness, i32::MIN as i64]), ready: 0, ..jobs[0] },
        11 => {
            let last = jobs.len() - 1;
            let end = slots as i64 + c.pick(&[0, 0, -1, 1, i32::MAX as i64]);
            jobs[last] = Job { release: end, ready: end.max(0) as u64 + c.below(lateness as u64 + 1), ..jobs[last] };
        }
        12 | 13 => {
            // the next job of the same task, as early as it may be or a slot earlier
            if let Some(next) = (chosen + 1..jobs.len()).find(|&next| jobs[next].task == job.task) {
                let release = job.release + task.period as i64 - c.pick(&[0, 1, 1]);
                jobs[next] = moved(jobs[next], release - jobs[next].release);
                jobs.sort();
            }
        }
        _ => jobs.swap(chosen, (chosen + 1) % jobs.len()),
    }
}

fn walk(c: &mut Chance) -> String {
    let table = if c.one_in(8) {
        given_table(c)
    } else {
        let count = c.between(0, 4);
        let periods = [3, 4, 5, 6, 8, 10, 12];
        Table::new((0..count).map(|_| {
            let period = c.pick(&periods);
            let task = task_within(c, period);
            if c.one_in(2) { task.late(c.between(0, (task.deadline - task.work) as u64) as u32) } else { task }
        }).collect())
    };
    let crowded = c.one_in(100);
    let slots = if crowded { 6_000 } else { trace_length(c) };
    let mut jobs = arrivals(c, &table, slots);
    jobs.truncate(if crowded { c.pick(&[1_023, 1_024, 1_025]) } else { 1_024 });
    if c.one_in(4) {
        damage_jobs(c, &table, slots, &mut jobs);
    }
    let mut row = bits(c, slots);
    damage_trace(c, &mut row);
    let mut lists = Jobs::of(&jobs);
    if c.one_in(20) {
        match c.below(4) {
            0 => lists.tasks.pop().map(drop),
            1 => lists.releases.pop().map(drop),
            2 => lists.ready.pop().map(drop),
            _ => lists.works.pop().map(drop),
        };
    }
    let length = match c.below(12) {
        0 => jobs.len() as u64 + 1,
        1 => (jobs.len() as u64).saturating_sub(1),
        _ => jobs.len() as u64,
    };
    format!("{} {} {} {length}", table_text(&table), jobs_text(&lists), row_text(&row))
}

/// Components in range with rising numbers, small enough to be judged quickly.
fn components(c: &mut Chance, count: u64) -> Vec<Component> {
    let mut number = if c.one_in(4) { 0 } else { c.below(100) as u16 };
    let mut all = vec![];
    for _ in 0..count {
        let mut made = judged_component(c);
        while made.check().is_err() {
            made = judged_component(c);
        }
        made.number = number;
        number = number.saturating_add(c.between(1, 200) as u16);
        all.push(made);
    }
    all
}

fn sheet_of(components: &[Component]) -> Vec<u8> {
    let mut bytes: Vec<u8> = components.iter().flat_map(sheet::component_bytes).collect();
    bytes.extend(sheet::end_bytes(components.len() as u16));
    bytes
}

/// A sheet of exactly 65,536 bytes: 36 stated and 31 asked components with 4,028 tasks on time among them, or with four late ones in the
/// place of some five.
fn full_sheet(c: &mut Chance) -> Vec<u8> {
    let fours = c.pick(&[0, 100, 805]);
    let mut tasks: Vec<Task> = (0..4_028 - fours).map(|count| {
        Task::new(c.pick(&[2, 3, 4, 6]), 1, 2).late((count < 4 * fours) as u32)
    }).collect();
    let components: Vec<Component> = (0..67u16).map(|number| {
        let own = tasks.split_off(tasks.len().saturating_sub(64));
        let capacity = if number < 36 { Capacity::Stated(1) } else { Capacity::Asked };
        Component::new(number, capacity, 6, 2, Table::new(own))
    }).collect();
    sheet_of(&components)
}

/// 256 or 257 components without tasks.
fn many_components(c: &mut Chance) -> Vec<u8> {
    let count = c.pick(&[256u16, 257]);
    let components: Vec<Component> = (0..count).map(|number| {
        let interface = Interface::new(6, 2, 4);
        Component { number, ..component_of(c, interface, Table::new(vec![])) }
    }).collect();
    sheet_of(&components)
}

/// A component with 64 tasks, sometimes with one more, which a sheet can't hold.
fn too_many_tasks(c: &mut Chance) -> Vec<u8> {
    let task = Task::new(8, 2, 8);
    let tasks = vec![task.late(c.pick(&[0, 6])); 64];
    let component = Component::new(4, Capacity::Asked, 6, 4, Table::new(tasks));
    let more = if c.one_in(3) { vec![] } else { nested::some_task(c, task) };
    [sheet::component_bytes(&component), more, sheet::end_bytes(1)].concat()
}

fn damage_sheet(c: &mut Chance, bytes: &mut Vec<u8>) {
    let length = bytes.len() as u64;
    let starts = record_places(bytes);
    let start = c.pick(&starts);
    match c.below(15) {
        0 => bytes.truncate(c.below(length) as usize),
        1 => bytes.truncate(start),
        2 => bytes.truncate((start + c.below(6) as usize).min(bytes.len())),
        3 => {
            let at = c.below(length) as usize;
            bytes[at] = c.next() as u8;
        }
        4 => bytes[start] = c.pick(&[0, 4, 6, 8, 14, 16, 18, 20, 255]),
        5 => bytes[start + 2] = c.pick(&[0, 1, 2, 3, 4, 5, 6, 16]),
        6 => bytes.extend(sheet::end_bytes(0)),
        7 => bytes.push(c.next() as u8),
        8 => {
            let at = (start + 4 + c.below(16) as usize).min(bytes.len() - 1);
            bytes[at] = c.pick(&[0, 1, 16, 255]);
        }
        9 | 10 => {
            let low = c.below(2) as u8;
            bytes[start + 4..start + 6].copy_from_slice(&[low, 0]);
        }
        11 => {
            bytes.drain(..start);
        }
        _ => {
            let at = starts.iter().position(|&place| place >= start).unwrap_or(0);
            if let Some(&place) = starts[at..].iter().find(|&&place| [sheet::TASK, sheet::LATE].contains(&sheet::number(bytes, place + 2))) {
                state_lateness(c, bytes, place);
            }
        }
    }
}

/// Puts a record that states a lateness, in range or out of it, in the place of a task's, and now and then in front of all.
fn state_lateness(c: &mut Chance, bytes: &mut Vec<u8>, place: usize) {
    let length = sheet::number(bytes, place) as usize;
    let task = Task::new(sheet::time(bytes, place + 4), sheet::time(bytes, place + 8), sheet::time(bytes, place + 12));
    let largest = task.deadline.saturating_sub(task.work);
    let more = largest.saturating_add(1);
    let late = sheet::late_bytes(&task.late(c.pick(&[0, 0, 1, largest, more, more, u32::MAX])));
    if c.one_in(6) {
        bytes.drain(..place);
        bytes.splice(..length, late);
    } else {
        bytes.splice(place..place + length, late);
    }
}

fn record_places(bytes: &[u8]) -> Vec<usize> {
    let mut places = vec![];
    let mut at = 0;
    while let Ok((_, fields)) = sheet::record(bytes, at) {
        places.push(at);
        at += fields.len();
    }
    places
}

/// A sheet, sound or damaged, with pairs or without.
fn made_sheet(c: &mut Chance) -> Made {
    if c.one_in(3) { nested_sheet(c) } else { flat_sheet(c) }
}

/// A sheet with pairs, or now and then one without.
fn nested_sheet(c: &mut Chance) -> Made {
    let mut made = if c.one_in(10) { flat_sheet(c) } else { nested::sheet(c) };
    if c.one_in(20) && sheet::record(&made.bytes, 0).is_ok() {
        damage_sheet(c, &mut made.bytes);
    }
    made
}

fn flat_sheet(c: &mut Chance) -> Made {
    let flat = |bytes: Vec<u8>, components: u64| Made { bytes, components, pairs: 0 };
    match c.below(300) {
        0 => {
            let mut bytes = full_sheet(c);
            if c.one_in(2) {
                bytes.push(0);
            }
            return flat(bytes, 67);
        }
        1 => return flat(many_components(c), 256),
        2 | 3 => return flat(too_many_tasks(c), 1),
        _ => {}
    }
    let count = match c.below(10) {
        0 => 0,
        1 => c.below(12),
        _ => c.between(1, 3),
    };
    let mut bytes = sheet_of(&components(c, count));
    if c.one_in(2) {
        damage_sheet(c, &mut bytes);
    }
    flat(bytes, count)
}

/// Edits of a component of a sheet that is sound or damaged, with pairs or without.
fn edit(c: &mut Chance) -> String {
    loop {
        let (bytes, components) = if c.one_in(2) {
            let made = made_sheet(c);
            (made.bytes, made.components)
        } else {
            stored::sheet(c, dividing_component)
        };
        let place = place(c, components);
        if let Some(words) = stored::edits(c, &bytes, place) {
            return words;
        }
    }
}

/// A sheet, sound or damaged.
pub fn given_sheet(c: &mut Chance) -> Vec<u8> {
    made_sheet(c).bytes
}

#[cfg(test)]
mod tests {
    use super::*;
    use crate::calls;

    #[test]
    fn every_kind_makes_calls() {
        let mut c = Chance::new(7);
        for kind in KINDS {
            for _ in 0..50 {
                let made = call(&mut c, kind).unwrap();
                assert!(calls::parse(&made).is_ok(), "{made}");
            }
        }
        assert!(call(&mut c, "no such kind").is_none());
    }

    #[test]
    fn the_full_sheet_is_as_long_as_a_sheet_can_be() {
        let bytes = full_sheet(&mut Chance::new(1));
        assert_eq!(bytes.len(), sheet::BYTES);
        assert_eq!(sheet::read(&bytes).unwrap().components.len(), 67);
    }
}
