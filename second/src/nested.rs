//! Nested sheets made by chance: trees of many shapes, sound and damaged in every way that the rules of pairs know.

use crate::chance::Chance;
use crate::numbers::{Capacity, Component, Table, Task};
use crate::sheet::{self, Pair};
use crate::tree::{as_task, judged, with_tasks, Judged};

/// The components and the pairs of a sheet.
pub struct Nest {
    pub components: Vec<Component>,
    pub pairs: Vec<Pair>,
}

/// A sheet, and how many components and pairs were put into it.
pub struct Made {
    pub bytes: Vec<u8>,
    pub components: u64,
    pub pairs: u64,
}

impl Nest {
    /// Its records, one by one.
    fn records(&self) -> Vec<Vec<u8>> {
        let mut bytes: Vec<u8> = self.components.iter().flat_map(sheet::component_bytes).collect();
        bytes.extend(self.pairs.iter().flat_map(sheet::pair_bytes));
        bytes.extend(sheet::end_bytes(self.components.len() as u16));
        split(&bytes)
    }

    /// Makes a component the child of another, both by their places; pairs have to be added by rising child.
    fn join(&mut self, child: usize, parent: usize) {
        self.pairs.push(Pair { child: self.components[child].number, parent: self.components[parent].number });
    }
}

/// The records of a sheet, one by one.
fn split(bytes: &[u8]) -> Vec<Vec<u8>> {
    let mut records = vec![];
    let mut at = 0;
    while let Ok((_, record)) = sheet::record(bytes, at) {
        records.push(record.to_vec());
        at += record.len();
    }
    records
}

pub fn component(number: u16, (period, capacity, deadline): (u32, Option<u32>, u32), tasks: &[(u32, u32, u32)]) -> Component {
    let capacity = capacity.map_or(Capacity::Asked, Capacity::Stated);
    let table = Table::new(tasks.iter().map(|&(t, c, d)| Task::new(t, c, d)).collect());
    Component::new(number, capacity, period, deadline, table)
}

/// Rising numbers, sometimes from 0 on or up to the largest.
fn numbers(c: &mut Chance, count: usize) -> Vec<u16> {
    let steps: Vec<u16> = (1..count).map(|_| if c.one_in(2) { 1 } else { c.between(1, 40) as u16 }).collect();
    let first = match c.below(4) {
        0 => 0,
        1 => u16::MAX - steps.iter().sum::<u16>(),
        _ => c.below(100) as u16,
    };
    (0..count).map(|place| first + steps[..place].iter().sum::<u16>()).collect()
}

/// Each place's parent: a chain, all below the last, or any place behind it or none.
fn shape(c: &mut Chance, count: usize) -> Vec<Option<usize>> {
    let manner = c.below(5);
    (0..count).map(|place| match manner {
        _ if place + 1 == count => None,
        0 | 1 => Some(place + 1),
        2 => Some(count - 1),
        _ if c.one_in(6) => None,
        _ => Some(c.between(place as u64 + 1, count as u64 - 1) as usize),
    }).collect()
}

/// Tasks whose periods divide a number and whose work is light, so that there is room for them at several levels.
fn tasks(c: &mut Chance, divisors: &[u32]) -> Vec<Task> {
    let count = c.pick(&[0, 0, 1, 1, 2, 3]);
    (0..count).map(|_| {
        let period = c.pick(divisors);
        let work = c.between(1, 1 + period as u64 / 8) as u32;
        let deadline = if c.one_in(2) { period } else { c.between(work as u64, period as u64) as u32 };
        let lateness = match c.below(5) {
            0 => deadline - work,
            1 => c.between(0, (deadline - work) as u64) as u32,
            2 => c.between(0, (deadline - work) as u64 / 4) as u32,
            _ => 0,
        };
        Task::new(period, work, deadline).late(lateness)
    }).collect()
}

/// Gives a component an interface whose period divides the number; its capacity is asked, the smallest that is enough, a larger one, or any.
fn interface(c: &mut Chance, own: &mut Component, more: &[Task], divisors: &[u32], asking: bool) {
    let short: Vec<u32> = divisors.iter().copied().filter(|&divisor| divisor <= 24).collect();
    own.period = c.pick(&short);
    own.deadline = if c.one_in(2) { own.period } else { c.between(1, own.period as u64) as u32 };
    own.capacity = Capacity::Asked;
    let manner = if asking { 0 } else { c.below(6) };
    let least = match judged(&with_tasks(own, more.to_vec())).capacity() {
        Some(units) if manner < 5 => units,
        _ => c.between(0, own.deadline as u64) as u32,
    };
    own.capacity = match manner {
        0 | 1 => Capacity::Asked,
        2 => Capacity::Stated(c.between(least as u64, own.deadline as u64) as u32),
        _ => Capacity::Stated(least),
    };
}

/// Whether a component is accepted with more tasks behind its own.
fn enough(own: &Component, more: &[Task]) -> bool {
    judged(&with_tasks(own, more.to_vec())).capacity().is_some()
}

/// A tree on the way up: the components so far, what is said of each, and which is whose child, by their places.
struct Growth {
    components: Vec<Component>,
    answers: Vec<Judged>,
    joined: Vec<(usize, usize)>,
}

impl Growth {
    /// The tasks that children add to a component that has the processor for itself; only of those that it has room for where all are to
    /// be accepted. The others have no parent.
    fn join(&mut self, own: &Component, children: Vec<usize>, accepted: bool) -> Vec<Task> {
        let mut more = vec![];
        for child in children {
            let capacity = self.answers[child].capacity().unwrap_or(0);
            let wider: Vec<Task> = more.iter().copied().chain(as_task(&self.components[child].interface(capacity))).collect();
            if !accepted || enough(own, &wider) {
                more = wider;
                self.joined.push((child, self.components.len()));
            }
        }
        more
    }

    fn waits(&self, place: usize) -> bool {
        self.joined.iter().any(|&(child, parent)| parent == place && self.answers[child].capacity().is_none())
    }
}

/// A tree grown from its leaves up, whose periods divide a number; all of its components are accepted, or some.
fn grown(c: &mut Chance, count: usize, accepted: bool) -> Nest {
    let common: u32 = c.pick(&[1, 6, 12, 24, 30, 48, 60, 120, 360]);
    let divisors: Vec<u32> = (1..=common).filter(|divisor| common % divisor == 0).collect();
    let (numbers, parents, asking) = (numbers(c, count), shape(c, count), c.one_in(4));
    let mut growth = Growth { components: vec![], answers: vec![], joined: vec![] };
    for place in 0..count {
        let mut own = component(numbers[place], (1, Some(1), 1), &[]);
        own.table = Table::new(tasks(c, &divisors));
        if accepted && !enough(&own, &[]) {
            own.table = Table::new(vec![]);
        }
        let children = (0..place).filter(|&child| parents[child] == Some(place)).collect();
        let more = growth.join(&own, children, accepted);
        for attempt in 0..4 {
            let mut other = own.clone();
            interface(c, &mut other, &more, &divisors, asking);
            if enough(&other, &more) || !accepted && (attempt == 3 || c.one_in(3)) {
                own = other;
                break;
            }
        }
        growth.answers.push(if growth.waits(place) { Judged::Waiting } else { judged(&with_tasks(&own, more)) });
        growth.components.push(own.right());
    }
    growth.joined.sort();
    let mut nest = Nest { components: growth.components, pairs: vec![] };
    growth.joined.into_iter().for_each(|(child, parent)| nest.join(child, parent));
    nest
}

/// A tree whose components are all accepted.
pub fn accepted(c: &mut Chance) -> Nest {
    let count = c.between(1, 7) as usize;
    grown(c, count, true)
}

/// A parent that is full or gets one child too many, by its tasks, by its children, by both; sometimes with a full component behind it.
fn filled(c: &mut Chance) -> Nest {
    let (own, children) = c.pick(&[(64, 0), (64, 1), (63, 1), (63, 2), (0, 64), (0, 65), (1, 63), (1, 64), (32, 32), (32, 33)]);
    let task = (c.pick(&[64, 128]), 1, 64);
    let adding = c.one_in(2);
    let mut nest = Nest { components: vec![], pairs: vec![] };
    for number in 0..children {
        nest.components.push(match c.below(3) {
            _ if adding => component(number, (64, Some(1), 64), &[]),
            1 => component(number, (c.pick(&[5, 7, 11]), Some(0), 1), &[]),
            _ => component(number, (6, None, 4), &[]),
        });
    }
    let parent = children as usize;
    nest.components.push(component(children, c.pick(&[(1, Some(1), 1), (2, None, 2), (4, Some(3), 4)]), &vec![task; own]));
    (0..parent).for_each(|child| nest.join(child, parent));
    if c.one_in(3) {
        nest.components[parent].table.tasks.iter_mut().for_each(|task| task.lateness = c.below(8) as u32);
    }
    let above = c.below(3);
    if above > 0 {
        nest.components.push(component(children + 1, (1, Some(1), 1), &vec![task; c.pick(&[0, 64])]));
    }
    if above > 1 {
        nest.join(parent, parent + 1);
    }
    nest
}

/// The odd ends of a tree: children that aren't accepted or have capacity 0, common periods that are too long or just short enough,
/// with or without a level above.
fn odd(c: &mut Chance) -> Nest {
    let limit = 1_048_576;
    let child = match c.below(8) {
        0 => component(1, (6, Some(2), 4), &[(8, 2, 7)]),
        1 => component(1, (6, None, 4), &[(4, 2, 2)]),
        2 => component(1, (3, None, 3), &[(limit, 1, 1)]),
        3 => component(1, (1_048_575, Some(c.below(2) as u32), 9), &[]),
        4 => component(1, (1_048_575, None, 9), &[]),
        5 => component(1, (limit, Some(c.pick(&[1, limit])), limit), &[]),
        6 => component(1, (6, None, 4), &[(8, 2, 7)]),
        _ => component(1, (6, Some(2), 4), &[(8, 2, 8)]),
    };
    let parent = match c.below(7) {
        0 | 6 => component(2, (3, Some(3), 3), &[(limit, 1, 1)]),
        1 => component(2, (limit, Some(1), 1), &[]),
        2 => component(2, (2, None, 2), &[]),
        3 => component(2, (2, Some(1), 2), &[(4, 2, 4)]),
        4 => component(2, (3, None, 1), &[(4, 2, 4)]),
        _ => component(2, (1, Some(1), 1), &[(4, 2, 4)]),
    };
    let mut nest = Nest { components: vec![child, parent, component(7, (1, Some(1), 1), &[])], pairs: vec![] };
    nest.join(0, if c.one_in(6) { 2 } else { 1 });
    if c.one_in(2) {
        nest.join(1, 2);
    }
    nest
}

/// As many components as a sheet takes, one inside the other or 64 below each; sometimes one more, before or behind the pairs.
fn many(c: &mut Chance) -> Vec<u8> {
    let (width, capacity) = c.pick(&[(1, Some(1)), (1, None), (64, None)]);
    let components = (0..256).map(|number| component(number, (1, capacity, 1), &[])).collect();
    let mut nest = Nest { components, pairs: vec![] };
    (0..255).for_each(|place| nest.join(place, 255 - (254 - place) / width));
    let mut records = nest.records();
    if c.one_in(2) {
        let place = c.pick(&[256, records.len() - 1]);
        records.insert(place, sheet::component_bytes(&component(256, (1, Some(1), 1), &[])));
    }
    records.concat()
}

/// A sheet of 65,536 bytes, the most there are, whose last records are two pairs; sometimes a byte longer.
fn full(c: &mut Chance) -> Vec<u8> {
    let mut left = 4_027;
    let components = (0..67).map(|number| {
        let own = left.min(64);
        left -= own;
        component(number, (6, if number < 36 { Some(1) } else { None }, 2), &vec![(c.pick(&[2, 3, 4, 6]), 1, 2); own])
    }).collect();
    let mut nest = Nest { components, pairs: vec![] };
    nest.join(62, 65);
    nest.join(64, 66);
    let mut bytes = nest.records().concat();
    bytes.resize(bytes.len() + c.below(2) as usize, 0);
    bytes
}

/// A task's record, with its lateness stated or not; a stated one may be out of range.
pub fn some_task(c: &mut Chance, task: Task) -> Vec<u8> {
    match c.below(2) {
        0 => sheet::late_bytes(&task.late(c.pick(&[0, 1, 6, 7]))),
        _ => sheet::plain_bytes(&task),
    }
}

/// A record behind a pair, whole or cut, or a pair that breaks a rule, is cut or has another length or kind, or an end among the pairs or
/// one that counts them.
fn damaged(c: &mut Chance, nest: &Nest) -> Vec<u8> {
    let mut records = nest.records();
    let own = nest.components.len();
    let end = records.len() - 1;
    let chosen = c.below(nest.pairs.len() as u64) as usize;
    let place = end - nest.pairs.len() + chosen;
    let pair = nest.pairs[chosen];
    let free = |number: &u16| nest.components.iter().all(|component| component.number != *number);
    let last = nest.components[own - 1].number;
    match c.below(17) {
        0 => records.insert(place + 1, sheet::pair_bytes(&Pair { child: pair.child, parent: c.pick(&[pair.parent, last]) })),
        1 => records.swap(place, (place + 1).min(end - 1)),
        2 => {
            let child = (0..pair.parent).rev().find(free).unwrap_or(u16::MAX);
            records[place] = sheet::pair_bytes(&Pair { child, ..pair });
        }
        3 => {
            let parent = (pair.child..=u16::MAX).find(free).unwrap_or(0);
            records[place] = sheet::pair_bytes(&Pair { parent, ..pair });
        }
        4 => records[place] = sheet::pair_bytes(&Pair { child: pair.parent, parent: c.pick(&[pair.parent, pair.child]) }),
        5 | 6 => {
            let period = c.pick(&[8, 8, 1]);
            records.insert(place + 1, some_task(c, Task::new(period, 2, 8)));
        }
        7 | 8 => {
            let number = if c.one_in(3) { last } else { last.saturating_add(1) };
            let period = c.pick(&[4, 4, 3]);
            records.insert(place + 1, sheet::component_bytes(&component(number, (period, if c.one_in(2) { Some(2) } else { None }, 4), &[])));
        }
        9 => {
            let moved = records.remove(place);
            let before = c.below(place as u64 + 1) as usize;
            records.insert(before, moved);
        }
        10 => records[place][0] = c.pick(&[0, 4, 6, 7, 9, 16, 18, 20, 255]),
        11 => {
            let length = c.below(8) as usize;
            records[place].truncate(length);
            records.truncate(place + 1);
        }
        12 => records[end] = sheet::end_bytes((own + nest.pairs.len()) as u16),
        13 => records[place][2] = c.pick(&[0, 1, 2, 3, 4, 5, 7, 8, 16]),
        14 => {
            let (period, length) = (c.pick(&[8, 1]), c.below(16) as usize);
            records[place + 1] = some_task(c, Task::new(period, 2, 8))[..length].to_vec();
            records.truncate(place + 2);
        }
        15 => records[place].extend(sheet::end_bytes(own as u16)),
        _ => {
            let field = 4 + c.below(4) as usize;
            records[place][field] = c.next() as u8;
        }
    }
    records.concat()
}

/// A nested sheet, sound or damaged.
pub fn sheet(c: &mut Chance) -> Made {
    let large = |bytes: Vec<u8>, components, pairs| Made { bytes, components, pairs };
    let nest = match c.below(400) {
        0..=2 => return large(full(c), 67, 2),
        3..=6 => return large(many(c), 256, 255),
        7..=28 => filled(c),
        29..=75 => odd(c),
        76..=85 => {
            let count = c.between(8, 40) as usize;
            grown(c, count, false)
        }
        86..=170 => accepted(c),
        _ => {
            let count = c.between(1, 7) as usize;
            grown(c, count, false)
        }
    };
    let bytes = if c.one_in(2) && !nest.pairs.is_empty() { damaged(c, &nest) } else { nest.records().concat() };
    Made { bytes, components: nest.components.len() as u64, pairs: nest.pairs.len() as u64 }
}

#[cfg(test)]
mod tests {
    use super::*;
    use crate::tree::Tree;

    #[test]
    fn an_accepted_nest_is_a_sheet_whose_components_are_all_accepted() {
        let mut c = Chance::new(3);
        let mut pairs = 0;
        for _ in 0..500 {
            let nest = accepted(&mut c);
            let sheet = sheet::read(&nest.records().concat()).unwrap();
            let tree = Tree::of(&sheet);
            assert!((0..tree.components.len()).all(|place| tree.judged(place).capacity().is_some()));
            assert_eq!(sheet.pairs, nest.pairs);
            pairs += nest.pairs.len();
        }
        assert!(pairs > 500);
    }

    #[test]
    fn the_largest_sheets() {
        let mut c = Chance::new(5);
        for _ in 0..20 {
            let bytes = full(&mut c);
            assert_eq!(sheet::read(&bytes).is_ok(), bytes.len() == sheet::BYTES);
            match sheet::read(&many(&mut c)) {
                Ok(sheet) => assert_eq!((sheet.components.len(), sheet.pairs.len()), (256, 255)),
                Err((refusal, _)) => assert!([7, 16].contains(&refusal)),
            }
        }
    }
}
