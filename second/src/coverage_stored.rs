//! What a call reaches of the rules about the stored common period (RULES 3 and 13): each sort of wrong one, 17 among the refusals around
//! it, and what making, reading and editing a component store.

use crate::calls::{edited, Call, Edit};
use crate::numbers::{add_task, make, remove_task, Component, Refusal, Stored, LIMIT, TASKS};
use crate::sheet::{self, Sheet};
use crate::stored::{multiple, wrong};
use crate::tree::Tree;

/// What has to be reached by some call.
pub const REACHED: [&str; 81] = [
    "17: one more",
    "17: one less",
    "17: 0",
    "17: twice the right one",
    "17: the period alone",
    "17: the last task left out",
    "17: the mark for a number",
    "17: any number",
    "17: the true multiple for the mark",
    "17: the limit for the mark",
    "17: the limit + 1 for the mark",
    "17: 0 for the mark",
    "17: the last task left out, for the mark",
    "17: any number for the mark",
    "17 before 10 at check_component",
    "17 before 10 at common_period",
    "17 before 10 at judge",
    "17 before 10 at capacity",
    "17 before 15 at remove_task",
    "17 before 11 at write",
    "6 before 17 at check_component",
    "6 before 17 at common_period",
    "6 before 17 at judge",
    "6 before 17 at capacity",
    "6 before 17 at add_task",
    "6 before 17 at remove_task",
    "6 before 17 at write",
    "9 before 17 at check_component",
    "9 before 17 at common_period",
    "9 before 17 at judge",
    "9 before 17 at capacity",
    "9 before 17 at add_task",
    "9 before 17 at add_task, by the new task alone",
    "9 before 17 at remove_task",
    "9 before 17 at write",
    "stored: just the limit",
    "stored: one below the limit",
    "stored: the mark, one above the limit",
    "stored: the mark, with 64 tasks",
    "stored: the mark, written",
    "add_task: the number stays",
    "add_task: another number",
    "add_task: from a number to just the limit",
    "add_task: from a number to the mark",
    "add_task: from the mark to the mark",
    "remove_task: the number stays",
    "remove_task: another number",
    "remove_task: from the mark to just the limit",
    "remove_task: from the mark to a number",
    "remove_task: from the mark to the mark",
    "make: a number",
    "make: just the limit",
    "make: the mark",
    "make: 64 tasks",
    "read: a number",
    "read: just the limit",
    "read: the mark",
    "read: a parent, whose children's periods don't count",
    "workload: the number of the own tasks",
    "workload: another number than that of the own tasks",
    "workload: the mark, and a number for the own tasks",
    "workload: the mark, and for the own tasks too",
    "edit: nothing",
    "edit: 200 times",
    "edit: a parent",
    "edit: a task added: another number",
    "edit: a task added: from a number to the mark",
    "edit: a task added: from the mark to the mark",
    "edit: a task removed: another number",
    "edit: a task removed: from the mark to a number",
    "edit: a task removed: from the mark to the mark",
    "edit: above the limit and back",
    "edit: a number at the end, then judged",
    "edit: just the limit at the end",
    "edit: the mark at the end, then 10",
    "edit: 64 tasks at the end",
    "edit: 6 by an edit",
    "edit: 9 by an edit",
    "edit: 15 by an edit",
    "edit: an edit behind a refused one",
    "edit: an edit refused above the limit",
];

const LIMITED: Stored = Stored::Number(LIMIT as u32);

fn reached(all: &[(bool, &str)]) -> Vec<String> {
    all.iter().filter(|(reached, _)| *reached).map(|(_, what)| what.to_string()).collect()
}

/// What a call reaches.
pub fn of_call(call: &Call) -> Vec<String> {
    let judging = |component: &Component| component.common_period().err();
    match call {
        Call::CheckComponent(component) => of_given("check_component", component, judging),
        Call::CommonPeriod(component) => of_given("common_period", component, judging),
        Call::Judge(component) => of_given("judge", component, judging),
        Call::Capacity(component) => of_given("capacity", component, judging),
        Call::AddTask(component, task) => {
            let mut all = of_given("add_task", component, |component| add_task(component, *task).err());
            all.extend(add_task(component, *task).iter().flat_map(|after| of_step("add_task", component.stored, after.stored)));
            let alone = component.table.count < TASKS && component.check_stored() == Err(17) && task.check().is_err();
            all.extend(reached(&[(alone, "9 before 17 at add_task, by the new task alone")]));
            all
        }
        Call::RemoveTask(component, place) => {
            let mut all = of_given("remove_task", component, |component| remove_task(component, *place).err());
            all.extend(remove_task(component, *place).iter().flat_map(|after| of_step("remove_task", component.stored, after.stored)));
            all
        }
        Call::Write(component, buffer, at) => {
            let refusal = |component: &Component| sheet::write_component(component, &mut buffer.clone(), *at).err();
            let mut all = of_given("write", component, refusal);
            all.extend(reached(&[(refusal(component).is_none() && component.stored == Stored::Above, "stored: the mark, written")]));
            all
        }
        Call::Make(number, capacity, period, deadline, table) => {
            let made = make(*number, *capacity, *period, *deadline, table.clone());
            made.iter().flat_map(|made| of_made("make", made)).collect()
        }
        Call::Read(row, place) => sheet::at_place(row, *place).iter().flat_map(|read| of_made("read", &read.component)).collect(),
        Call::Workload(row, place) => sheet::read(row).iter().flat_map(|sheet| of_workload(sheet, *place)).collect(),
        Call::Edit(row, place, edits) => sheet::read(row).iter().flat_map(|sheet| of_edits(sheet, *place, edits)).collect(),
        _ => vec![],
    }
}

/// A component that is handed to an operation: the sort of its stored value where that is wrong, and what else would refuse it; or how
/// near to the limit the right value is.
fn of_given(kind: &str, component: &Component, refusal: impl Fn(&Component) -> Option<Refusal>) -> Vec<String> {
    let common = component.common();
    if component.stored == common {
        let above = common == Stored::Above && component.check().is_ok();
        return reached(&[
            (common == LIMITED, "stored: just the limit"),
            (common == Stored::Number(LIMIT as u32 - 1), "stored: one below the limit"),
            (above && multiple(component) == Some(LIMIT + 1), "stored: the mark, one above the limit"),
            (above && component.table.count == TASKS, "stored: the mark, with 64 tasks"),
        ]);
    }
    match refusal(component) {
        Some(17) => {
            let sorts: Vec<&str> = wrong(component).iter().filter(|(_, stored)| *stored == component.stored).map(|(sort, _)| *sort).collect();
            let any = if common == Stored::Above { "any number for the mark" } else { "any number" };
            let sorts = if sorts.is_empty() { vec![any] } else { sorts };
            let later = refusal(&component.clone().right()).map(|later| format!("17 before {later} at {kind}"));
            sorts.iter().map(|sort| format!("17: {sort}")).chain(later).collect()
        }
        Some(earlier) => vec![format!("{earlier} before 17 at {kind}")],
        None => vec![],
    }
}

/// What an edit makes of the stored value.
fn of_step(what: &str, before: Stored, after: Stored) -> Vec<String> {
    let changes: &[&str] = match (before, after) {
        (Stored::Above, Stored::Above) => &["from the mark to the mark"],
        (Stored::Above, LIMITED) => &["from the mark to a number", "from the mark to just the limit"],
        (Stored::Above, _) => &["from the mark to a number"],
        (_, Stored::Above) => &["from a number to the mark"],
        _ if before == after => &["the number stays"],
        (_, LIMITED) => &["another number", "from a number to just the limit"],
        _ => &["another number"],
    };
    changes.iter().map(|change| format!("{what}: {change}")).collect()
}

fn of_made(what: &str, made: &Component) -> Vec<String> {
    let stored = if made.stored == Stored::Above { "the mark" } else { "a number" };
    let more = reached(&[(made.stored == LIMITED, "just the limit"), (made.table.count == TASKS, "64 tasks")]);
    [stored.to_string()].into_iter().chain(more).map(|stored| format!("{what}: {stored}")).collect()
}

/// The stored value of a parent with its workload beside the one with its own tasks.
fn of_workload(sheet: &Sheet, place: u64) -> Vec<String> {
    let tree = Tree::of(sheet);
    let place = place as usize;
    if place >= tree.components.len() || tree.children(place).is_empty() {
        return vec![];
    }
    let own = tree.components[place].stored;
    let whole = tree.workload(place).map(|workload| workload.stored);
    reached(&[
        (whole.is_some_and(|whole| whole != own), "read: a parent, whose children's periods don't count"),
        (whole == Some(own) && own != Stored::Above, "workload: the number of the own tasks"),
        (whole.is_some_and(|whole| whole != own && whole != Stored::Above), "workload: another number than that of the own tasks"),
        (whole == Some(Stored::Above) && own != Stored::Above, "workload: the mark, and a number for the own tasks"),
        (whole == Some(Stored::Above) && own == Stored::Above, "workload: the mark, and for the own tasks too"),
    ])
}

/// What a row of edits of a component reaches, step by step and at its end.
fn of_edits(sheet: &Sheet, place: u64, edits: &[Edit]) -> Vec<String> {
    let Some(read) = sheet.components.get(place as usize) else {
        return vec![];
    };
    let mut component = read.component.clone();
    let mut back = false;
    let mut all = reached(&[
        (edits.is_empty(), "edit: nothing"),
        (edits.len() == 200, "edit: 200 times"),
        (sheet.pairs.iter().any(|pair| pair.parent == component.number), "edit: a parent"),
    ]);
    for (count, edit) in edits.iter().enumerate() {
        let before = component.stored;
        component = match edited(component, &[*edit]) {
            Ok(component) => component,
            Err(refusal) => {
                all.push(format!("edit: {refusal} by an edit"));
                all.extend(reached(&[
                    (count + 1 < edits.len(), "edit: an edit behind a refused one"),
                    (before == Stored::Above, "edit: an edit refused above the limit"),
                ]));
                return all;
            }
        };
        let what = if matches!(edit, Edit::Add(_)) { "edit: a task added" } else { "edit: a task removed" };
        all.extend(of_step(what, before, component.stored));
        back |= before == Stored::Above && component.stored != Stored::Above && read.component.stored != Stored::Above;
    }
    all.extend(reached(&[
        (back, "edit: above the limit and back"),
        (component.stored != Stored::Above, "edit: a number at the end, then judged"),
        (component.stored == LIMITED, "edit: just the limit at the end"),
        (component.stored == Stored::Above, "edit: the mark at the end, then 10"),
        (component.table.count == TASKS, "edit: 64 tasks at the end"),
    ]));
    all
}
