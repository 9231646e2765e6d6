//! Components that store a common period made by chance: the right one and each sort of wrong one (RULES 3), common periods about the
//! limit, and edits of a component in a sheet.

use crate::calls::{edit_text, edited, row_text, Edit};
use crate::chance::Chance;
use crate::numbers::{common_multiple, Capacity, Component, Stored, Table, Task, LIMIT, TASKS};
use crate::sheet::{self, Pair};

/// Π and the periods of tasks whose common period is the limit, one below it, or above it: by one, threefold, or so far that the
/// product of two of them has more than 32 bits, in one case with low bits that stay within the limit.
const PERIODS: [&[u32]; 12] = [
    &[1_048_576],
    &[1, 1_048_576],
    &[16, 65_536, 1_048_576],
    &[2, 1_048_576, 1_048_576, 4],
    &[75, 341, 41],
    &[17, 61_681],
    &[1, 61_681, 17],
    &[3, 1_048_576],
    &[5, 1_048_576, 3],
    &[65_537, 65_539],
    &[1_048_575, 1_048_576],
    &[1_048_573, 1_048_571, 1_048_559],
];

/// A component whose common period is about the limit.
pub fn about_the_limit(c: &mut Chance) -> Component {
    let periods = c.pick(&PERIODS);
    let tasks = periods[1..].iter().map(|&period| light(c, period)).collect();
    let deadline = c.between(1, periods[0].min(4) as u64) as u32;
    let capacity = if c.one_in(2) { Capacity::Asked } else { Capacity::Stated(c.between(0, deadline as u64) as u32) };
    let mut component = Component::new(c.below(1 << 16) as u16, capacity, periods[0], deadline, Table::new(tasks));
    if c.one_in(4) {
        let own = component.table.tasks.len();
        let more = c.pick(&[1, 2, 62, 63, 64]).min(TASKS as usize - own);
        component.table = Table::new([vec![light(c, 2); more], component.table.tasks].concat());
    }
    component.right()
}

/// A task of a period with little work.
fn light(c: &mut Chance, period: u32) -> Task {
    let deadline = if c.one_in(2) { period } else { c.between(1, period as u64) as u32 };
    Task::new(period, 1, deadline).late(if c.one_in(4) { deadline - 1 } else { 0 })
}

/// A task that takes some common periods to the limit and others above it.
pub fn far_task(c: &mut Chance) -> Task {
    let period = c.pick(&[61_681, 65_536, 1_048_575, 1_048_576]);
    light(c, period)
}

/// The component with a stored common period: mostly the right one, else one of a sort of wrong ones or any number.
pub fn held(component: Component, c: &mut Chance) -> Component {
    let stored = match c.below(36) {
        0..=4 => c.pick(&wrong(&component)).1,
        5 => Stored::Number(c.next() as u32 >> c.below(32)),
        _ => component.common(),
    };
    Component { stored, ..component }
}

/// The sorts of wrong stored values, each with its value for a component.
pub fn wrong(component: &Component) -> Vec<(&'static str, Stored)> {
    let right = component.common();
    let number = |value: u64| u32::try_from(value).ok().map(Stored::Number);
    let before = component.table.tasks.split_last().map(|(_, others)| Component { table: Table::new(others.to_vec()), ..component.clone() }.common());
    let all = match right {
        Stored::Number(common) => vec![
            ("one more", number(common as u64 + 1)),
            ("one less", number((common as u64).wrapping_sub(1))),
            ("0", number(0)),
            ("twice the right one", number(2 * common as u64)),
            ("the period alone", number(component.period as u64)),
            ("the last task left out", before),
            ("the mark for a number", Some(Stored::Above)),
        ],
        Stored::Above => vec![
            ("the true multiple for the mark", multiple(component).and_then(number)),
            ("the limit for the mark", number(LIMIT)),
            ("the limit + 1 for the mark", number(LIMIT + 1)),
            ("0 for the mark", number(0)),
            ("the last task left out, for the mark", before),
        ],
    };
    all.into_iter().filter_map(|(sort, stored)| stored.filter(|&stored| stored != right).map(|stored| (sort, stored))).collect()
}

/// The least common multiple of the periods, above the limit too, as long as it has 32 bits.
pub fn multiple(component: &Component) -> Option<u64> {
    component.table.tasks.iter().try_fold(component.period as u64, |common, task| {
        Some(common_multiple(common, task.period as u64)).filter(|&common| common <= u32::MAX as u64)
    })
}

/// Whether every capacity can be tried at every instant in so many steps; what isn't judged takes none.
fn within(component: &Component, steps: u64) -> bool {
    component.common_period().map_or(true, |common| common * (component.deadline as u64 + 1) <= steps)
}

/// A sheet of a few components about the limit, full ones and others, sometimes with a pair; and how many components there are.
pub fn sheet(c: &mut Chance, other: impl Fn(&mut Chance) -> Component) -> (Vec<u8>, u64) {
    let count = c.between(1, 4) as u16;
    let components: Vec<Component> = (0..count).map(|number| {
        let made = match c.below(4) {
            0 | 1 => about_the_limit(c),
            2 => Component::new(0, Capacity::Asked, 6, 4, Table::new(vec![light(c, 8); c.pick(&[62, 63, 64])])),
            _ => other(c),
        };
        Component { number, ..made }
    }).collect();
    let mut bytes: Vec<u8> = components.iter().flat_map(sheet::component_bytes).collect();
    if let ([first, .., last], true) = (&components[..], c.one_in(2)) {
        if last.table.count < TASKS {
            bytes.extend(sheet::pair_bytes(&Pair { child: first.number, parent: last.number }));
        }
    }
    bytes.extend(sheet::end_bytes(components.len() as u16));
    (bytes, components.len() as u64)
}

/// The words of edits of a sheet's component at a place; none where it can't be judged quickly.
pub fn edits(c: &mut Chance, bytes: &[u8], place: u64) -> Option<String> {
    let count = if c.one_in(40) { c.pick(&[66, 199, 200]) } else { c.pick(&[0, 1, 1, 2, 2, 3, 4, 8]) };
    let steps = if c.one_in(10) { 4_000_000 } else { 300_000 };
    let mut state = sheet::at_place(bytes, place).map(|read| read.component).map_err(|(refusal, _)| refusal);
    if state.as_ref().is_ok_and(|component| !within(component, steps)) {
        return None;
    }
    let mut edits = vec![];
    while edits.len() < count {
        let edit = edit(c, state.as_ref().map_or(1, |component| component.table.count), count > 8);
        let next = state.clone().and_then(|component| edited(component, &[edit]));
        if next.as_ref().map_or(true, |component| within(component, steps)) {
            edits.push(edit);
            state = next;
        }
    }
    let words: String = edits.iter().map(|edit| format!(" {}", edit_text(edit))).collect();
    Some(format!("{} {place} {count}{words}", row_text(bytes)))
}

/// An edit of a component with so many tasks; many edits in a row are such that few of them are refused.
fn edit(c: &mut Chance, tasks: u64, many: bool) -> Edit {
    let full = tasks >= TASKS && !c.one_in(60);
    let past = c.one_in(if many { 400 } else { 10 });
    if (c.one_in(3) || many && full) && (tasks > 0 || past) {
        return Edit::Remove(if past { c.pick(&[tasks, tasks, tasks + 1, 64, u64::MAX]) } else { c.below(tasks) });
    }
    let task = if c.one_in(3) {
        far_task(c)
    } else {
        let period = c.pick(&[1, 2, 3, 4, 5, 6, 8, 12, 17, 24]);
        light(c, period)
    };
    let damaged = c.one_in(if many { 400 } else { 12 });
    Edit::Add(if damaged { c.pick(&[task.late(task.deadline), Task { work: 0, ..task }, Task { period: 1_048_577, ..task }]) } else { task })
}

#[cfg(test)]
mod tests {
    use super::*;

    #[test]
    fn common_periods_about_the_limit() {
        let of = |periods: &[u32]| {
            let tasks = periods[1..].iter().map(|&period| Task::new(period, 1, 1)).collect();
            multiple(&Component::new(1, Capacity::Asked, periods[0], 1, Table::new(tasks)))
        };
        let all = PERIODS.map(of);
        let limit = Some(LIMIT);
        assert_eq!(all[..7], [limit, limit, limit, limit, Some(1_048_575), Some(1_048_577), Some(1_048_577)]);
        assert_eq!(all[7..], [Some(3 * LIMIT), Some(15 * LIMIT), None, None, None]);
        assert_eq!((65_537u64 * 65_539) as u32, 262_147);
    }

    #[test]
    fn wrong_values_are_wrong_and_held_ones_mostly_right() {
        let mut c = Chance::new(4);
        let mut right = 0;
        for _ in 0..1_000 {
            let made = about_the_limit(&mut c);
            assert_eq!(made.check_stored(), Ok(()));
            for (sort, stored) in wrong(&made) {
                assert_eq!(Component { stored, ..made.clone() }.check_stored(), Err(17), "{sort}");
            }
            right += held(made, &mut c).check_stored().is_ok() as u32;
        }
        assert!((750..900).contains(&right), "{right}");
    }
}
