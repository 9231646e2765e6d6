//! What the sheet of a call reaches of the rules about pairs (RULES 10 and 13) and about trees (RULES 7).

use crate::judge::{Judgement, Verdict};
use crate::numbers::{Capacity, Task, TASKS};
use crate::sheet::{self, Pair, Sheet};
use crate::tree::{with_tasks, Judged, Tree};

/// What has to be reached by some call.
pub const REACHED: [&str; 46] = [
    "16: a parent that isn't larger",
    "16: a second pair of a child",
    "16: a child below an earlier one",
    "16: no such child",
    "16: no such parent",
    "16: a pair before its component",
    "16: a component behind a pair",
    "16: a task behind a pair",
    "16 before 5 at a component",
    "16 before 7 at a component",
    "16 before 9 at a component",
    "16 before 6 at a task",
    "16 before 9 at a task",
    "16 before 6 at a pair",
    "1 at a cut pair",
    "1 before 16 at a cut component or task",
    "3 at a pair",
    "3 before 16 at a component or task",
    "6 at a pair below 64 tasks",
    "6 at a pair behind 64 others",
    "6 at a pair, tasks and children mixed",
    "8: the end counts the pairs too",
    "full: a parent of 64 children",
    "full: a parent of 63 tasks and a child",
    "full: tasks and children mixed",
    "waiting: a child is short",
    "waiting: a child is none",
    "waiting: a child's common period is too long",
    "waiting: a child waits",
    "waiting: and its own common period is too long",
    "parent: accepted",
    "parent: short",
    "parent: none",
    "parent: its common period is too long",
    "parent: too long by a child's period alone",
    "parent: asked over an asked child",
    "parent: accepted over an asked child of an asked child",
    "parent: a child has capacity 0",
    "parent: a child of capacity 0 would make the common period too long",
    "parent: no workload, so no margin",
    "parent: own tasks, and children that add some",
    "parent: 64 in a judged workload",
    "chain: 4 accepted, each with a capacity above 0",
    "chain: 256 components",
    "pair: number 0",
    "pair: number 65535",
];

/// The kind of the record at a place, where its head is there.
pub fn kind_at(row: &[u8], at: usize) -> Option<u16> {
    (at + 4 <= row.len()).then(|| sheet::number(row, at + 2))
}

fn own_tasks(sheet: &Sheet, number: u16) -> Option<u64> {
    sheet.place_of(number).map(|place| sheet.components[place].component.table.count)
}

fn children(sheet: &Sheet, number: u16) -> u64 {
    sheet.pairs.iter().filter(|pair| pair.parent == number).count() as u64
}

/// What a sheet reaches, taken or refused.
pub fn of_sheet(row: &[u8]) -> Vec<String> {
    let (sheet, fault) = sheet::scan(row);
    let Some((refusal, at)) = fault else {
        return of_taken(&sheet);
    };
    let behind = !sheet.pairs.is_empty();
    match (refusal, kind_at(row, at)) {
        (16, Some(sheet::PAIR)) => of_wrong_pair(&sheet, row, at),
        (16, Some(kind)) => {
            let what = if [sheet::TASK, sheet::LATE].contains(&kind) { "task" } else { "component" };
            let alone = Sheet { pairs: vec![], ..sheet }.take(row, at);
            let hidden = alone.err().map(|own| format!("16 before {own} at a {what}"));
            [format!("16: a {what} behind a pair")].into_iter().chain(hidden).collect()
        }
        (1, Some(sheet::PAIR)) => vec!["1 at a cut pair".into()],
        (3, Some(sheet::PAIR)) => vec!["3 at a pair".into()],
        (1 | 3, Some(sheet::STATED | sheet::ASKED | sheet::TASK | sheet::LATE)) if behind => {
            let cut = if refusal == 1 { " cut" } else { "" };
            vec![format!("{refusal} before 16 at a{cut} component or task")]
        }
        (6, Some(sheet::PAIR)) => {
            let what = match own_tasks(&sheet, sheet::number(row, at + 6)) {
                Some(TASKS) => "6 at a pair below 64 tasks",
                Some(0) => "6 at a pair behind 64 others",
                _ => "6 at a pair, tasks and children mixed",
            };
            vec![what.into()]
        }
        (8, _) if behind && sheet::number(row, at + 4) as usize == sheet.components.len() + sheet.pairs.len() => {
            vec!["8: the end counts the pairs too".into()]
        }
        _ => vec![],
    }
}

/// The rule that a pair breaks, where it breaks one alone; and what else is wrong there.
fn of_wrong_pair(sheet: &Sheet, row: &[u8], at: usize) -> Vec<String> {
    let Pair { child, parent } = Pair { child: sheet::number(row, at + 4), parent: sheet::number(row, at + 6) };
    let last = sheet.pairs.last().map(|pair| pair.child);
    let broken = [
        (parent <= child, "16: a parent that isn't larger"),
        (last == Some(child), "16: a second pair of a child"),
        (last > Some(child), "16: a child below an earlier one"),
        (own_tasks(sheet, child).is_none(), "16: no such child"),
        (own_tasks(sheet, parent).is_none(), "16: no such parent"),
    ];
    let broken: Vec<&str> = broken.iter().filter(|(broken, _)| *broken).map(|(_, what)| *what).collect();
    let mut reached = vec![];
    if let [alone] = broken[..] {
        reached.push(alone.to_string());
        if own_tasks(sheet, parent).map_or(false, |own| own + children(sheet, parent) >= TASKS) {
            reached.push("16 before 6 at a pair".into());
        }
        let mut later = at;
        while let Ok((kind, record)) = sheet::record(row, later) {
            let number = sheet::number(record, 4);
            if [sheet::STATED, sheet::ASKED].contains(&kind) && own_tasks(sheet, number).is_none() && [child, parent].contains(&number) {
                reached.push("16: a pair before its component".into());
            }
            later += record.len();
        }
    }
    reached
}

/// Parents that are just full, a tree of 256 in a chain, and the ends of numbers.
fn of_taken(sheet: &Sheet) -> Vec<String> {
    let mut reached = vec![];
    for read in &sheet.components {
        let (own, below) = (read.component.table.count, children(sheet, read.component.number));
        if own + below == TASKS && below > 0 {
            let what = match (own, below) {
                (0, _) => "full: a parent of 64 children",
                (_, 1) => "full: a parent of 63 tasks and a child",
                _ => "full: tasks and children mixed",
            };
            reached.push(what.into());
        }
    }
    let named = |number: u16| sheet.pairs.iter().any(|pair| [pair.child, pair.parent].contains(&number));
    reached.extend([0, u16::MAX].into_iter().filter(|&number| named(number)).map(|number| format!("pair: number {number}")));
    let rising = |pair: &Pair| sheet.place_of(pair.parent) == sheet.place_of(pair.child).map(|place| place + 1);
    if sheet.components.len() == sheet::COMPONENTS && sheet.pairs.len() + 1 == sheet::COMPONENTS && sheet.pairs.iter().all(rising) {
        reached.push("chain: 256 components".into());
    }
    reached
}

/// How many components stand one in the other from this one down, all of them accepted with a capacity above 0.
fn chain(tree: &Tree, place: usize) -> usize {
    let counts = tree.judged(place).capacity() > Some(0);
    if counts { 1 + tree.children(place).iter().map(|&child| chain(tree, child)).max().unwrap_or(0) } else { 0 }
}

/// What the component at a place reaches, where it is a parent.
pub fn of_place(tree: &Tree, place: usize) -> Vec<&'static str> {
    let children: Vec<Judged> = tree.children(place).iter().map(|&child| tree.judged(child)).collect();
    let short = |judged: &Judged| matches!(judged.verdict(), Some(Verdict::Short(_)));
    let short_late = |child: usize| late(tree, child) && short(&tree.judged(child));
    let too_long = tree.components[place].common_period() == Err(10);
    let all = match tree.judged(place) {
        _ if children.is_empty() => vec![],
        Judged::Waiting => vec![
            (children.iter().any(short), "waiting: a child is short"),
            (children.iter().any(|child| child.verdict() == Some(Verdict::None)), "waiting: a child is none"),
            (children.contains(&Judged::Long), "waiting: a child's common period is too long"),
            (children.contains(&Judged::Waiting), "waiting: a child waits"),
            (too_long, "waiting: and its own common period is too long"),
            (tree.children(place).iter().any(|&child| short_late(child)), "late: task of a short child"),
        ],
        Judged::Long => vec![
            (too_long, "parent: its common period is too long"),
            (!too_long, "parent: too long by a child's period alone"),
        ],
        Judged::Answered(judgement) => of_judged(tree, place, judgement),
    };
    all.into_iter().filter(|(reached, _)| *reached).map(|(_, what)| what).collect()
}

/// Whether a component has a late task of its own.
fn late(tree: &Tree, place: usize) -> bool {
    tree.components[place].table.tasks.iter().any(|task| task.lateness > 0)
}

/// The same of a parent with a verdict.
fn of_judged(tree: &Tree, place: usize, Judgement { verdict, margin, .. }: Judgement) -> Vec<(bool, &'static str)> {
    let (own, children) = (&tree.components[place], tree.children(place));
    let workload = tree.workload(place).expect("it doesn't wait");
    let count = workload.table.count;
    let asked = |place: usize| tree.components[place].capacity == Capacity::Asked;
    let feeds = |above: usize, child: usize| asked(above) && asked(child) && tree.judged(child).capacity() > Some(0);
    let twice = |child: usize| feeds(place, child) && tree.children(child).iter().any(|&below| feeds(child, below));
    let empty: Vec<usize> = children.iter().copied().filter(|&child| tree.judged(child).capacity() == Some(0)).collect();
    let lengthens = |child: usize| with_tasks(&workload, [Task::new(tree.components[child].period, 1, 1)]).common_period() == Err(10);
    vec![
        (verdict == Verdict::Accepted, "parent: accepted"),
        (matches!(verdict, Verdict::Short(_)), "parent: short"),
        (verdict == Verdict::None, "parent: none"),
        (children.iter().any(|&child| feeds(place, child)), "parent: asked over an asked child"),
        (verdict == Verdict::Accepted && children.iter().any(|&child| twice(child)), "parent: accepted over an asked child of an asked child"),
        (!empty.is_empty(), "parent: a child has capacity 0"),
        (count < TASKS && empty.iter().any(|&child| lengthens(child)), "parent: a child of capacity 0 would make the common period too long"),
        (count == 0 && margin.is_none(), "parent: no workload, so no margin"),
        (own.table.count > 0 && count > own.table.count, "parent: own tasks, and children that add some"),
        (count == TASKS, "parent: 64 in a judged workload"),
        (chain(tree, place) >= 4, "chain: 4 accepted, each with a capacity above 0"),
        (verdict == Verdict::Accepted && late(tree, place), "late: own task of an accepted parent"),
        (verdict == Verdict::Accepted && children.iter().any(|&child| late(tree, child)), "late: task of an accepted parent's child"),
    ]
}
