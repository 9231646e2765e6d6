//! Every small call there is, as a check of the definitions by running: all traces, all components and stored common periods, for each
//! component the runs that show it to be short (RULES 7), and small sheets damaged in every way: a plain one, one with late tasks, a
//! nested one.

use crate::calls::{component_text, row_text, walk_text};
use crate::numbers::{Capacity, Component, Interface, Stored, Table, Task};
use crate::run::{Job, Jobs};
use crate::{sheet, text, trace};

/// Every interface up to a period.
pub fn interfaces(longest: u32) -> Vec<Interface> {
    let mut all = vec![];
    for period in 1..=longest {
        for deadline in 1..=period {
            all.extend((0..=deadline).map(|capacity| Interface { period, capacity, deadline }));
        }
    }
    all
}

/// Every task up to a period, with every lateness.
pub fn tasks(longest: u32) -> Vec<Task> {
    let mut all = vec![];
    for period in 1..=longest {
        for deadline in 1..=period {
            for work in 1..=deadline {
                all.extend((0..=deadline - work).map(|lateness| Task::new(period, work, deadline).late(lateness)));
            }
        }
    }
    all
}

/// Every table of none, one or two tasks up to a period.
fn tables(longest: u32) -> Vec<Table> {
    let tasks = tasks(longest);
    let mut all = vec![Table::new(vec![])];
    all.extend(tasks.iter().map(|&task| Table::new(vec![task])));
    for &first in &tasks {
        all.extend(tasks.iter().map(|&second| Table::new(vec![first, second])));
    }
    all
}

fn component(interface: Interface, capacity: Capacity, table: &Table) -> Component {
    Component::new(1, capacity, interface.period, interface.deadline, table.clone())
}

/// The trace question on every trace of at most 7 slots, for every interface up to period 3 at every offset.
pub fn traces() -> Vec<String> {
    let mut calls = vec![];
    for interface in interfaces(3) {
        for offset in 0..interface.period {
            for slots in 0..=7 {
                for bits in 0..1u32 << slots {
                    let row: Vec<u8> = (0..slots).map(|slot| (bits >> slot & 1) as u8).collect();
                    let Interface { period, capacity, deadline } = interface;
                    calls.push(format!("legal {period} {capacity} {deadline} {offset} {}", row_text(&row)));
                }
            }
        }
    }
    calls
}

/// Every component up to period 3 with at most two tasks up to period 4 judged, and its smallest capacity; and the calls of `stored`.
pub fn components() -> Vec<String> {
    let mut calls = vec![];
    for interface in interfaces(3) {
        for table in tables(4) {
            let stated = component_text(&component(interface, Capacity::Stated(interface.capacity), &table));
            calls.push(format!("judge {stated}"));
            if interface.capacity == 0 {
                let asked = component_text(&component(interface, Capacity::Asked, &table));
                calls.extend(["judge", "capacity"].map(|kind| format!("{kind} {asked}")));
            }
        }
    }
    calls.extend(stored());
    calls
}

/// Each operation that takes a component, for every Π up to 3 with at most two tasks of T up to 4, and for every stored common period
/// from 0 to 13, which is one above the largest that is right, and the mark.
fn stored() -> Vec<String> {
    let short = |table: &Table| table.tasks.iter().all(|task| task.deadline == 1);
    let operations = ["check_component IT", "common_period IT", "judge IT", "capacity IT", "add_task IT 4 1 4 0", "remove_task IT 0", "write IT 50 0"];
    let mut calls = vec![];
    for period in 1..=3 {
        for table in tables(4).iter().filter(|table| short(table)) {
            for stored in (0..=13).map(Stored::Number).chain([Stored::Above]) {
                let given = component_text(&Component { stored, ..component(Interface::new(period, 1, 1), Capacity::Asked, table) });
                calls.extend(operations.map(|call| call.replace("IT", &given)));
            }
        }
    }
    calls
}

/// The jobs of a table's hardest run over so many slots: each task releases its full work J slots before slot 0 and again each T slots.
/// The last argument chooses the readiness between its ends, for the job of a number from 0 on of a task.
pub fn hardest(table: &Table, slots: u64, ready: impl Fn(u64, u64, u64) -> u64) -> Jobs {
    let mut jobs = vec![];
    for (number, task) in table.tasks.iter().enumerate() {
        let (period, lateness) = (task.period as i64, task.lateness as i64);
        let releases = (-lateness..slots as i64).step_by(period as usize);
        jobs.extend(releases.enumerate().map(|(count, release)| {
            let ready = ready(release.max(0) as u64, (release + lateness) as u64, (number + count) as u64);
            Job { release, task: number as u32, ready, work: task.work }
        }));
    }
    jobs.sort();
    Jobs::of(&jobs)
}

/// Each of those components judged, and then walks of its hardest run on the worst trace over two common periods: with the jobs ready as
/// late as they may be, as early, and in turn at each slot between. By RULES 7 every one of the walks misses at just the first short
/// instant, and nowhere if the component is accepted.
pub fn runs() -> Vec<String> {
    let mut calls = vec![];
    for interface in interfaces(3) {
        for table in tables(4) {
            let stated = component(interface, Capacity::Stated(interface.capacity), &table);
            let slots = 2 * stated.common_period().expect("a small common period");
            let (_, row) = trace::worst(&interface, slots);
            let mut runs = vec![
                hardest(&table, slots, |_, latest, _| latest),
                hardest(&table, slots, |earliest, _, _| earliest),
                hardest(&table, slots, |earliest, latest, turn| earliest + turn % (latest - earliest + 1)),
            ];
            runs.dedup();
            calls.push(format!("judge {}", component_text(&stated)));
            calls.extend(runs.iter().map(|jobs| walk_text(&table, jobs, &row)));
        }
    }
    calls
}

/// A small sheet damaged in every way: cut at every byte, every value of every byte, every kind and length of its first record, every
/// count up to 300 in its end record, bytes behind the end; and sheets with 64 and 65 tasks, with 256 and 257 components, of 65,536 and
/// 65,537 bytes.
pub fn sheets() -> Vec<String> {
    let small = text::bytes("component 1 stated 6 2 4\ntask 8 2 8\ncomponent 2 asked 6 4\nend 2\n").expect("a sheet's text");
    let mut all: Vec<Vec<u8>> = (0..=small.len()).map(|end| small[..end].to_vec()).collect();
    let changed = |at: usize, value: &[u8]| {
        let mut sheet = small.clone();
        sheet[at..at + value.len()].copy_from_slice(value);
        sheet
    };
    for at in 0..small.len() {
        all.extend((0..=255u8).map(|byte| changed(at, &[byte])));
    }
    for value in 0..=u16::MAX {
        all.push(changed(0, &value.to_le_bytes()));
        all.push(changed(2, &value.to_le_bytes()));
    }
    all.extend((0..=300u16).map(|count| changed(small.len() - 2, &count.to_le_bytes())));
    all.extend((1..=8).map(|more| [small.clone(), vec![0; more]].concat()));
    let task = Task::new(8, 2, 8);
    let with = |number: u16, count: usize| sheet::component_bytes(&Component { number, ..component(interfaces(1)[1], Capacity::Asked, &Table::new(vec![task; count])) });
    for count in [64, 65] {
        all.push([with(7, count), sheet::end_bytes(1)].concat());
    }
    for count in [256, 257] {
        all.push([(0..count).flat_map(|number| with(number, 0)).collect(), sheet::end_bytes(count)].concat());
    }
    // 63 components with 64 tasks each, and one with the tasks that fill the sheet but for a byte or pass it
    let full: Vec<u8> = (0..63).flat_map(|number| with(number, 64)).collect();
    for length in [sheet::BYTES, sheet::BYTES + 1] {
        all.push([full.clone(), vec![0; length - full.len()]].concat());
    }
    let mut calls: Vec<String> = all.iter().map(|bytes| format!("sheet {}", row_text(bytes))).collect();
    calls.extend(late().iter().flat_map(|bytes| ["sheet ROW", "read ROW 0"].map(|call| call.replace("ROW", &row_text(bytes)))));
    calls.extend(nested().iter().flat_map(|bytes| ["sheet ROW", "read_pair ROW 0", "host_all ROW 120 0"].map(|call| call.replace("ROW", &row_text(bytes)))));
    calls
}

/// A small sheet with a late task between two others damaged in every way: cut at every byte, every value of every byte of the late task's
/// record, each record in the place of each; the late task with all small values, stated as late and not; and late tasks where none may
/// be, in range and out of it: before the component, behind 64 others, behind a pair.
fn late() -> Vec<Vec<u8>> {
    let bytes = |lines: &str| text::bytes(lines).expect("a sheet's text");
    let records = ["component 1 stated 6 2 4", "task 8 2 8", "task 8 2 8 1", "task 4 1 4 3", "component 2 asked 6 4", "end 2"].map(bytes);
    let (before, behind) = (records[..2].concat(), records[3..].concat());
    let with = |record: &[u8]| [&before, record, &behind].concat();
    let small = records.concat();
    let mut all: Vec<Vec<u8>> = (0..=small.len()).map(|end| small[..end].to_vec()).collect();
    for at in 0..records[2].len() {
        all.extend((0..=255).map(|value| with(&[&records[2][..at], &[value], &records[2][at + 1..]].concat())));
    }
    for place in 0..records.len() {
        all.extend(records.iter().map(|record| {
            let mut other = records.clone();
            other[place] = record.clone();
            other.concat()
        }));
    }
    let tasks = (0..6 * 6 * 6).map(|value| Task::new(value % 6, value / 6 % 6, value / 36));
    for task in tasks {
        all.push(with(&sheet::plain_bytes(&task)));
        all.extend((0..6).map(|lateness| with(&sheet::late_bytes(&task.late(lateness)))));
    }
    for lateness in [0, 1, 6, 7, u32::MAX] {
        let late = sheet::late_bytes(&Task::new(8, 2, 8).late(lateness));
        let full = [records[0].clone(), bytes("task 8 2 8 6").repeat(64)].concat();
        all.push([&late, &small[..]].concat());
        all.push([&full, &late[..], &behind].concat());
        all.push([&full[..full.len() - 20], &late, &behind[20..]].concat());
        all.push([&small[..small.len() - 6], &bytes("pair 1 2"), &late, &bytes("end 2")].concat());
    }
    all
}

/// A small nested sheet damaged in every way: cut at every byte, a few values of every byte and every value of its pairs' bytes, each
/// record left out, twice there or behind each other one, every pair of two numbers up to 4, every end count up to 8.
fn nested() -> Vec<Vec<u8>> {
    let lines = "component 1 stated 6 2 4\ntask 8 2 8\ncomponent 2 asked 1 1\ntask 4 2 4\ntask 24 1 24 5\ncomponent 3 stated 1 1 1\npair 1 2\npair 2 3\nend 3\n";
    let bytes = |lines: &str| text::bytes(lines).expect("a sheet's text");
    let small = bytes(lines);
    let pairs = small.len() - 6 - 2 * 8;
    let mut all: Vec<Vec<u8>> = (0..=small.len()).map(|end| small[..end].to_vec()).collect();
    for at in 0..small.len() {
        let few = [0, 1, 2, 3, 4, 5, 6, 7, 8, 14, 16, 18, 20, 255];
        let values: Vec<u8> = if at < pairs { few.to_vec() } else { (0..=255).collect() };
        all.extend(values.iter().map(|&value| [&small[..at], &[value], &small[at + 1..]].concat()));
    }
    let records: Vec<&str> = lines.lines().collect();
    for from in 0..records.len() {
        let mut fewer = records.clone();
        fewer.remove(from);
        all.push(bytes(&fewer.join("\n")));
        for to in 0..=fewer.len() {
            let moved = [&fewer[..to], &[records[from]], &fewer[to..]].concat();
            let twice = [&records[..to], &[records[from]], &records[to..]].concat();
            all.extend([moved, twice].map(|lines| bytes(&lines.join("\n"))));
        }
    }
    for (child, parent) in (0..=4).flat_map(|child| (0..=4).map(move |parent| (child, parent))) {
        let pair = format!("pair {child} {parent}");
        all.extend(["pair 1 2", "pair 2 3"].map(|old| bytes(&lines.replace(old, &pair))));
    }
    all.extend((0..=8).map(|count| bytes(&lines.replace("end 3", &format!("end {count}")))));
    all
}
