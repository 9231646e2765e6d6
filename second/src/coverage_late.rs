//! What a call reaches of the rules about lateness: the jobs of a walk (RULES 9), the records that state it (RULES 10), and what it costs
//! (RULES 7).

use crate::calls::Call;
use crate::coverage_pairs::kind_at;
use crate::judge::{judge, Judgement, Verdict};
use crate::numbers::{add_task, remove_task, Capacity, Component, Table, Task, TASKS};
use crate::run::{self, Jobs, JOBS};
use crate::sheet::{self, Sheet};
use std::collections::BTreeSet;

/// What has to be reached by some call.
pub const REACHED: [&str; 64] = [
    "walk: a job ready after its release",
    "walk: a job ready as late as it may be",
    "walk: a job ready at the trace's end",
    "walk: a job ready after the trace's end",
    "walk: a job released before slot 0",
    "walk: a job released J slots before slot 0",
    "walk: a job released before slot 0 and ready after it",
    "walk: jobs of two tasks released before slot 0",
    "walk: no slots, and a job released before slot 0",
    "walk: a unit passes by a job that isn't ready",
    "walk: a unit is idle before a job that isn't ready",
    "walk: a miss of a job released before slot 0",
    "walk: a miss by readiness alone",
    "12 alone: one list of another length, tasks",
    "12 alone: one list of another length, releases",
    "12 alone: one list of another length, readiness",
    "12 alone: one list of another length, works",
    "12 alone: more than 1024 jobs",
    "12 alone: no such task",
    "12 alone: work 0",
    "12 alone: work above C",
    "12 alone: ready before its release",
    "12 alone: ready a slot too late",
    "12 alone: ready much too late",
    "12 alone: released more than J slots before slot 0",
    "12 alone: releases out of order",
    "12 alone: releases out of order around slot 0",
    "12 alone: tasks out of order at one release",
    "12 alone: a slot too close",
    "12 alone: a slot too close to a release before slot 0",
    "12 alone: released at the trace's end",
    "12 alone: released after the trace's end",
    "kind 5: taken",
    "kind 5: J is 1",
    "kind 5: J is D - C",
    "kind 5: beside kind 2 in a component",
    "kind 5: 64 in a component",
    "kind 5: 9 by J = 0",
    "kind 5: 9 by J = D - C + 1",
    "kind 5: 9 by T, C or D",
    "kind 5: 1 where it is cut",
    "kind 5: 3 by its length",
    "kind 5: 4 in range",
    "kind 5: 4 before 9",
    "kind 5: 4 before 9 by J = 0",
    "kind 5: 6 in range",
    "kind 5: 6 before 9",
    "kind 5: 6 before 9 by J = 0",
    "kind 5: 16 in range",
    "kind 5: 16 before 9",
    "kind 5: 16 before 9 by J = 0",
    "late: accepted",
    "late: a larger capacity than on time",
    "late: short, and accepted on time",
    "late: short earlier than on time",
    "late: none, and accepted on time",
    "late: a margin less than on time",
    "late: a margin at an earlier instant than on time",
    "late: a task added",
    "late: a task moves down",
    "late: written beside a task on time",
    "late: own task of an accepted parent",
    "late: task of an accepted parent's child",
    "late: task of a short child",
];

/// What a call reaches beside its sheet and its tree.
pub fn of_call(call: &Call) -> Vec<String> {
    let said = |reached: bool, what: &str| if reached { vec![what.to_string()] } else { vec![] };
    match call {
        Call::Walk(table, jobs, row, left) if table.check().is_ok() => {
            let rules = broken(table, jobs, row.len());
            match (rules.len(), run::answer(table, jobs, row, *left)) {
                (1, _) => rules.into_iter().map(|rule| format!("12 alone: {rule}")).collect(),
                (0, Ok(_)) => of_walk(table, jobs, row),
                _ => vec![],
            }
        }
        Call::Judge(component) | Call::Capacity(component) => of_judged(component),
        Call::AddTask(component, task) => said(task.lateness > 0 && add_task(component, *task).is_ok(), "late: a task added"),
        Call::RemoveTask(component, place) => {
            let moves = remove_task(component, *place).is_ok_and(|edited| edited.table.tasks[*place as usize..].iter().any(late));
            said(moves, "late: a task moves down")
        }
        Call::Write(component, buffer, at) => {
            let mixed = component.table.tasks.iter().any(late) && !component.table.tasks.iter().all(late);
            let written = sheet::write_component(component, &mut buffer.clone(), *at).is_ok();
            said(mixed && written, "late: written beside a task on time")
        }
        _ => vec![],
    }
}

fn late(task: &Task) -> bool {
    task.lateness > 0
}

fn reached(all: &[(bool, &str)]) -> Vec<String> {
    all.iter().filter(|(reached, _)| *reached).map(|(_, what)| what.to_string()).collect()
}

/// The rules of the run that job lists break, each once. The table is in range.
fn broken(table: &Table, jobs: &Jobs, slots: usize) -> BTreeSet<&'static str> {
    let Some(count) = jobs.count() else {
        return other_length([jobs.tasks.len(), jobs.releases.len(), jobs.ready.len(), jobs.works.len()]);
    };
    let mut rules = BTreeSet::new();
    let mut last: Vec<Option<i64>> = vec![None; table.tasks.len()];
    if count > JOBS {
        rules.insert("more than 1024 jobs");
    }
    for place in 0..count {
        let job = jobs.job(place);
        let Some(task) = table.tasks.get(job.task as usize) else {
            rules.insert("no such task");
            continue;
        };
        let (ready, lateness) = (job.ready as i64, task.lateness as i64);
        let before = place.checked_sub(1).map_or(job, |before| jobs.job(before));
        let close = last[job.task as usize].replace(job.release).filter(|last| job.release < last + task.period as i64);
        let a_slot = close.filter(|last| job.release + 1 == last + task.period as i64);
        let tests = [
            (job.work == 0, "work 0"),
            (job.work > task.work, "work above C"),
            (ready < job.release, "ready before its release"),
            (job.release < -lateness, "released more than J slots before slot 0"),
            (job.release >= -lateness && ready == job.release + lateness + 1, "ready a slot too late"),
            (job.release >= -lateness && ready > job.release + lateness + 1, "ready much too late"),
            (before.release > job.release && (before.release < 0 || job.release >= 0), "releases out of order"),
            (before.release >= 0 && job.release < 0, "releases out of order around slot 0"),
            (before.release == job.release && before.task > job.task, "tasks out of order at one release"),
            (a_slot.map_or(false, |last| last >= 0), "a slot too close"),
            (a_slot.map_or(false, |last| last < 0), "a slot too close to a release before slot 0"),
            (close.is_some() && a_slot.is_none(), "much too close"),
            (job.release == slots as i64, "released at the trace's end"),
            (job.release > slots as i64, "released after the trace's end"),
        ];
        rules.extend(tests.iter().filter(|(broken, _)| *broken).map(|(_, rule)| *rule));
    }
    rules
}

/// The one list whose length isn't that of the three others, or that there is none.
fn other_length(lengths: [usize; 4]) -> BTreeSet<&'static str> {
    let names = [
        "one list of another length, tasks",
        "one list of another length, releases",
        "one list of another length, readiness",
        "one list of another length, works",
    ];
    let odd = (0..4).find(|&place| {
        let others: BTreeSet<usize> = (0..4).filter(|&other| other != place).map(|other| lengths[other]).collect();
        others.len() == 1
    });
    BTreeSet::from([odd.map_or("several lists of other lengths", |place| names[place])])
}

/// What a walk that is answered reaches.
fn of_walk(table: &Table, jobs: &Jobs, row: &[u8]) -> Vec<String> {
    let all: Vec<(run::Job, i64)> = (0..jobs.tasks.len()).map(|place| {
        let job = jobs.job(place);
        (job, table.tasks[job.task as usize].lateness as i64)
    }).collect();
    let some = |test: &dyn Fn(&run::Job, i64) -> bool| all.iter().any(|(job, lateness)| test(job, *lateness));
    let end = row.len() as u64;
    let met = run::met(table, jobs, row);
    let at_once = Jobs { ready: jobs.releases.iter().map(|&release| release.max(0) as u32).collect(), ..jobs.clone() };
    let first_early: BTreeSet<u32> = all.iter().filter(|(job, _)| job.release < 0).map(|(job, _)| job.task).collect();
    let misses = |jobs: &Jobs| run::run(table, jobs, row).miss.is_some();
    reached(&[
        (some(&|job, _| job.ready as i64 > job.release), "walk: a job ready after its release"),
        (some(&|job, lateness| lateness > 0 && job.ready as i64 == job.release + lateness), "walk: a job ready as late as it may be"),
        (some(&|job, _| job.ready == end), "walk: a job ready at the trace's end"),
        (some(&|job, _| job.ready > end), "walk: a job ready after the trace's end"),
        (!first_early.is_empty(), "walk: a job released before slot 0"),
        (some(&|job, lateness| lateness > 0 && job.release == -lateness), "walk: a job released J slots before slot 0"),
        (some(&|job, _| job.release < 0 && job.ready > 0), "walk: a job released before slot 0 and ready after it"),
        (first_early.len() > 1, "walk: jobs of two tasks released before slot 0"),
        (row.is_empty() && !first_early.is_empty(), "walk: no slots, and a job released before slot 0"),
        (met.passed_by, "walk: a unit passes by a job that isn't ready"),
        (met.idle_by, "walk: a unit is idle before a job that isn't ready"),
        (met.early_miss, "walk: a miss of a job released before slot 0"),
        (row.len() <= 100 && misses(jobs) && !misses(&at_once), "walk: a miss by readiness alone"),
    ])
}

/// What a sheet reaches, taken or refused.
pub fn of_sheet(row: &[u8]) -> Vec<String> {
    let (sheet, fault) = sheet::scan(row);
    let Some((refusal, at)) = fault else {
        return of_taken(&sheet);
    };
    match (refusal, kind_at(row, at)) {
        (1, Some(sheet::LATE)) => vec!["kind 5: 1 where it is cut".into()],
        (3, Some(sheet::LATE)) => vec!["kind 5: 3 by its length".into()],
        (_, Some(sheet::LATE)) => of_refused(refusal, &row[at..]),
        _ => vec![],
    }
}

/// What a whole record that states a lateness is refused with, and whether it is out of range beside that.
fn of_refused(refusal: u16, record: &[u8]) -> Vec<String> {
    let task = Task::new(sheet::time(record, 4), sheet::time(record, 8), sheet::time(record, 12));
    let lateness = sheet::time(record, 16);
    let fits = lateness > 0 && task.late(lateness).check().is_ok();
    let what = match (refusal, task.check()) {
        (9, Err(_)) => "9 by T, C or D".to_string(),
        (9, Ok(())) if lateness == 0 => "9 by J = 0".to_string(),
        (9, Ok(())) if lateness - 1 == task.deadline - task.work => "9 by J = D - C + 1".to_string(),
        (9, Ok(())) => "9 by a larger J".to_string(),
        _ if lateness == 0 => format!("{refusal} before 9 by J = 0"),
        _ => format!("{refusal} {}", if fits { "in range" } else { "before 9" }),
    };
    vec![format!("kind 5: {what}")]
}

fn of_taken(sheet: &Sheet) -> Vec<String> {
    let tables: Vec<&Vec<Task>> = sheet.components.iter().map(|read| &read.component.table.tasks).collect();
    let some = |test: &dyn Fn(&Task) -> bool| tables.iter().any(|tasks| tasks.iter().any(test));
    reached(&[
        (some(&late), "kind 5: taken"),
        (some(&|task| task.lateness == 1), "kind 5: J is 1"),
        (some(&|task| late(task) && task.lateness == task.deadline - task.work), "kind 5: J is D - C"),
        (tables.iter().any(|tasks| tasks.iter().any(late) && !tasks.iter().all(late)), "kind 5: beside kind 2 in a component"),
        (tables.iter().any(|tasks| tasks.len() as u64 == TASKS && tasks.iter().all(late)), "kind 5: 64 in a component"),
    ])
}

/// What is said of a component with late tasks, beside what would be said of it if all were on time. Long common periods aren't looked at.
fn of_judged(component: &Component) -> Vec<String> {
    if !component.table.tasks.iter().any(late) || component.common_period().map_or(true, |common| common > 2_000) {
        return vec![];
    }
    let on_time = Component { table: Table::new(component.table.tasks.iter().map(|task| task.late(0)).collect()), ..component.clone() };
    let (Ok(Judgement { verdict, capacity, margin }), Ok(on_time)) = (judge(component), judge(&on_time)) else {
        return vec![];
    };
    let before = on_time.verdict;
    let stated = component.capacity != Capacity::Asked;
    let margins = margin.zip(on_time.margin).filter(|_| stated);
    reached(&[
        (verdict == Verdict::Accepted, "late: accepted"),
        (verdict == Verdict::Accepted && capacity > on_time.capacity, "late: a larger capacity than on time"),
        (matches!((verdict, before), (Verdict::Short(_), Verdict::Accepted)), "late: short, and accepted on time"),
        (matches!((verdict, before), (Verdict::Short(a), Verdict::Short(b)) if a < b), "late: short earlier than on time"),
        ((verdict, before) == (Verdict::None, Verdict::Accepted), "late: none, and accepted on time"),
        (margins.map_or(false, |(a, b)| a.0 < b.0), "late: a margin less than on time"),
        (margins.map_or(false, |(a, b)| a.1 < b.1), "late: a margin at an earlier instant than on time"),
    ])
}
