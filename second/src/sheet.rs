//! The sheet (RULES 10): its check, parts, reading and writing.

use crate::numbers::{Capacity, Component, Refusal, Table, Task, TASKS};

/// The most bytes of a sheet.
pub const BYTES: usize = 65_536;
/// The most components of a sheet.
pub const COMPONENTS: usize = 256;

pub const STATED: u16 = 1;
pub const TASK: u16 = 2;
pub const END: u16 = 3;
pub const ASKED: u16 = 4;
/// A task that states its lateness.
pub const LATE: u16 = 5;
pub const PAIR: u16 = 6;

/// A component of a sheet, with the places where its records begin and end.
#[derive(Clone, Debug, PartialEq, Eq)]
pub struct Read {
    pub start: usize,
    pub end: usize,
    pub component: Component,
}

/// The numbers of a child and of its parent.
#[derive(Clone, Copy, Debug, PartialEq, Eq)]
pub struct Pair {
    pub child: u16,
    pub parent: u16,
}

/// The components and the pairs of a sheet, in its order.
#[derive(Clone, Debug, Default, PartialEq, Eq)]
pub struct Sheet {
    pub components: Vec<Read>,
    pub pairs: Vec<Pair>,
}

/// The refusal and its place (RULES 11).
pub type Fault = (Refusal, usize);

/// The length of a kind of record.
pub fn length_of(kind: u16) -> Option<usize> {
    match kind {
        STATED => Some(18),
        TASK => Some(16),
        END => Some(6),
        ASKED => Some(14),
        LATE => Some(20),
        PAIR => Some(8),
        _ => None,
    }
}

pub fn number(bytes: &[u8], at: usize) -> u16 {
    u16::from_le_bytes([bytes[at], bytes[at + 1]])
}

pub fn time(bytes: &[u8], at: usize) -> u32 {
    u32::from_le_bytes([bytes[at], bytes[at + 1], bytes[at + 2], bytes[at + 3]])
}

/// The record at a place, with its kind; RULES 13 has the order: too short for a head, kind, length, cut.
pub fn record(sheet: &[u8], at: usize) -> Result<(u16, &[u8]), Refusal> {
    let rest = &sheet[at..];
    if rest.len() < 4 {
        return Err(1);
    }
    let (length, kind) = (number(rest, 0) as usize, number(rest, 2));
    let right = length_of(kind).ok_or(2u16)?;
    if length != right {
        return Err(3);
    }
    if length > rest.len() {
        return Err(1);
    }
    Ok((kind, &rest[..length]))
}

/// The sheet, or its refusal with its place.
pub fn read(bytes: &[u8]) -> Result<Sheet, Fault> {
    match scan(bytes) {
        (sheet, None) => Ok(sheet),
        (_, Some(fault)) => Err(fault),
    }
}

/// What stands in a sheet before its refusal, and the refusal.
pub fn scan(bytes: &[u8]) -> (Sheet, Option<Fault>) {
    let mut sheet = Sheet::default();
    if bytes.len() > BYTES {
        return (sheet, Some((14, 0)));
    }
    let mut at = 0;
    let fault = loop {
        match sheet.take(bytes, at) {
            Ok(Some(next)) => at = next,
            Ok(None) => break None,
            Err(refusal) => break Some((refusal, at)),
        }
    };
    // no byte of a sheet holds a common period: it is worked out once all tasks are there
    for read in &mut sheet.components {
        read.component.stored = read.component.common();
    }
    (sheet, fault)
}

impl Sheet {
    /// Takes the record at a place and answers where the next one begins; none does behind the end.
    pub fn take(&mut self, bytes: &[u8], at: usize) -> Result<Option<usize>, Refusal> {
        let (kind, fields) = record(bytes, at)?;
        let next = at + fields.len();
        match kind {
            STATED | ASKED => self.component(kind, fields, at)?,
            TASK | LATE => self.task(kind, fields, next)?,
            PAIR => self.pair(fields)?,
            _ => {
                let right = number(fields, 4) as usize == self.components.len() && next == bytes.len();
                return if right { Ok(None) } else { Err(8) };
            }
        }
        Ok(Some(next))
    }

    /// A component record: behind a pair 16, one too many 7, a number that doesn't rise 5, a value out of range 9, in that order.
    fn component(&mut self, kind: u16, fields: &[u8], at: usize) -> Result<(), Refusal> {
        if !self.pairs.is_empty() {
            return Err(16);
        }
        if self.components.len() == COMPONENTS {
            return Err(7);
        }
        let own = number(fields, 4);
        if self.components.last().map_or(false, |last| own <= last.component.number) {
            return Err(5);
        }
        let (capacity, deadline) = match kind {
            STATED => (Capacity::Stated(time(fields, 10)), time(fields, 14)),
            _ => (Capacity::Asked, time(fields, 10)),
        };
        let component = Component::new(own, capacity, time(fields, 6), deadline, Table::new(vec![]));
        component.check()?;
        self.components.push(Read { start: at, end: at + fields.len(), component });
        Ok(())
    }

    /// A task record: behind a pair 16, with no component before it 4, one too many 6, out of range 9, in that order. A lateness that is
    /// stated as 0 is out of range: a task has one form.
    fn task(&mut self, kind: u16, fields: &[u8], end: usize) -> Result<(), Refusal> {
        if !self.pairs.is_empty() {
            return Err(16);
        }
        let read = self.components.last_mut().ok_or(4u16)?;
        if read.component.table.count == TASKS {
            return Err(6);
        }
        let mut task = Task::new(time(fields, 4), time(fields, 8), time(fields, 12));
        if kind == LATE {
            task.lateness = time(fields, 16);
            if task.lateness == 0 {
                return Err(9);
            }
        }
        task.check()?;
        read.component.table.tasks.push(task);
        read.component.table.count += 1;
        read.end = end;
        Ok(())
    }

    /// A pair record: one that breaks the rules of pairs is 16, one child too many for its parent 6, in that order.
    fn pair(&mut self, fields: &[u8]) -> Result<(), Refusal> {
        let pair = Pair { child: number(fields, 4), parent: number(fields, 6) };
        let rises = self.pairs.last().map_or(true, |last| last.child < pair.child);
        let parent = self.place_of(pair.parent).ok_or(16u16)?;
        if pair.parent <= pair.child || !rises || self.place_of(pair.child).is_none() {
            return Err(16);
        }
        let children = self.pairs.iter().filter(|earlier| earlier.parent == pair.parent).count() as u64;
        if self.components[parent].component.table.count + children + 1 > TASKS {
            return Err(6);
        }
        self.pairs.push(pair);
        Ok(())
    }

    /// The place of the component with a number, where there is one.
    pub fn place_of(&self, number: u16) -> Option<usize> {
        self.components.iter().position(|read| read.component.number == number)
    }
}

/// Of several things the one at a place, or 15.
fn chosen<T: Clone>(all: &[T], place: u64) -> Result<T, Fault> {
    usize::try_from(place).ok().and_then(|place| all.get(place)).cloned().ok_or((15, 0))
}

/// The component at a place among the components: the sheet's refusal, then 15.
pub fn at_place(bytes: &[u8], place: u64) -> Result<Read, Fault> {
    chosen(&read(bytes)?.components, place)
}

/// The pair at a place among the pairs: the sheet's refusal, then 15.
pub fn pair_at(bytes: &[u8], place: u64) -> Result<Pair, Fault> {
    chosen(&read(bytes)?.pairs, place)
}

/// A component's records as bytes.
pub fn component_bytes(component: &Component) -> Vec<u8> {
    let mut bytes = vec![];
    match component.capacity {
        Capacity::Stated(units) => {
            begin(&mut bytes, STATED);
            bytes.extend(component.number.to_le_bytes());
            times(&mut bytes, &[component.period, units, component.deadline]);
        }
        Capacity::Asked => {
            begin(&mut bytes, ASKED);
            bytes.extend(component.number.to_le_bytes());
            times(&mut bytes, &[component.period, component.deadline]);
        }
    }
    bytes.extend(component.table.tasks.iter().flat_map(task_bytes));
    bytes
}

/// A task's record as bytes: its lateness is stated exactly where it is not 0.
pub fn task_bytes(task: &Task) -> Vec<u8> {
    if task.lateness > 0 { late_bytes(task) } else { plain_bytes(task) }
}

/// The record that leaves a task's lateness out.
pub fn plain_bytes(task: &Task) -> Vec<u8> {
    let mut bytes = vec![];
    begin(&mut bytes, TASK);
    times(&mut bytes, &[task.period, task.work, task.deadline]);
    bytes
}

/// The record that states a task's lateness, also 0, which no sheet may.
pub fn late_bytes(task: &Task) -> Vec<u8> {
    let mut bytes = vec![];
    begin(&mut bytes, LATE);
    times(&mut bytes, &[task.period, task.work, task.deadline, task.lateness]);
    bytes
}

/// A pair's record as bytes.
pub fn pair_bytes(pair: &Pair) -> Vec<u8> {
    let mut bytes = vec![];
    begin(&mut bytes, PAIR);
    bytes.extend(pair.child.to_le_bytes());
    bytes.extend(pair.parent.to_le_bytes());
    bytes
}

/// The end record as bytes.
pub fn end_bytes(count: u16) -> Vec<u8> {
    let mut bytes = vec![];
    begin(&mut bytes, END);
    bytes.extend(count.to_le_bytes());
    bytes
}

pub fn begin(bytes: &mut Vec<u8>, kind: u16) {
    let length = length_of(kind).expect("a kind of the list") as u16;
    bytes.extend(length.to_le_bytes());
    bytes.extend(kind.to_le_bytes());
}

pub fn times(bytes: &mut Vec<u8>, values: &[u32]) {
    for value in values {
        bytes.extend(value.to_le_bytes());
    }
}

/// Writes a component and answers the place behind it, or 6, 9, 17, 11 (RULES 13).
pub fn write_component(component: &Component, buffer: &mut [u8], at: u64) -> Result<u64, Refusal> {
    component.check_stored()?;
    put(&component_bytes(component), buffer, at)
}

/// Writes the end record and answers the place behind it, or 9 by the count, 11 (RULES 13).
pub fn write_end(count: u64, buffer: &mut [u8], at: u64) -> Result<u64, Refusal> {
    if count > COMPONENTS as u64 {
        return Err(9);
    }
    put(&end_bytes(count as u16), buffer, at)
}

/// Writes a pair and answers the place behind it, or 16 unless the parent is the larger, 11 (RULES 13).
pub fn write_pair(pair: &Pair, buffer: &mut [u8], at: u64) -> Result<u64, Refusal> {
    if pair.parent <= pair.child {
        return Err(16);
    }
    put(&pair_bytes(pair), buffer, at)
}

/// Puts bytes into a buffer at a place and answers the place behind them; 11 without room.
pub fn put(bytes: &[u8], buffer: &mut [u8], at: u64) -> Result<u64, Refusal> {
    if at > buffer.len() as u64 || (buffer.len() as u64 - at) < bytes.len() as u64 {
        return Err(11);
    }
    let at = at as usize;
    buffer[at..at + bytes.len()].copy_from_slice(bytes);
    Ok((at + bytes.len()) as u64)
}

#[cfg(test)]
mod tests {
    use super::*;
    use crate::numbers::Stored;
    use crate::text;

    fn one(number: u16) -> Component {
        Component::new(number, Capacity::Stated(2), 6, 4, Table::new(vec![Task::new(8, 2, 8)]))
    }

    fn sheet_of(components: &[Component]) -> Vec<u8> {
        let mut bytes: Vec<u8> = components.iter().flat_map(component_bytes).collect();
        bytes.extend(end_bytes(components.len() as u16));
        bytes
    }

    #[test]
    fn empty_input_and_an_end_record_alone() {
        assert_eq!(read(&[]), Err((1, 0)));
        assert_eq!(read(&end_bytes(0)), Ok(Sheet::default()));
    }

    #[test]
    fn what_is_written_is_read_back() {
        let components = [one(3), one(7), one(65_535)];
        let sheet = sheet_of(&components);
        let found: Vec<Component> = read(&sheet).unwrap().components.into_iter().map(|r| r.component).collect();
        assert_eq!(found, components);
        assert_eq!(at_place(&sheet, 1).map(|r| (r.start, r.end)), Ok((34, 68)));
        assert_eq!(at_place(&sheet, 3), Err((15, 0)));
    }

    /// Component 7 asked, Π 6, Δ 4, with (8, 2, 8, 1) between two tasks on time.
    #[test]
    fn lateness_is_stated_where_it_is_not_0() {
        let table = Table::new(vec![Task::new(8, 2, 8), Task::new(8, 2, 8).late(1), Task::new(4, 1, 4)]);
        let component = Component { capacity: Capacity::Asked, table, ..one(7) };
        let sheet = sheet_of(&[component.clone()]);
        assert_eq!(sheet[14..18], [16, 0, 2, 0]);
        assert_eq!(sheet[30..50], [20, 0, 5, 0, 8, 0, 0, 0, 2, 0, 0, 0, 8, 0, 0, 0, 1, 0, 0, 0]);
        assert_eq!(sheet[50..54], [16, 0, 2, 0]);
        assert_eq!(at_place(&sheet, 0), Ok(Read { start: 0, end: 66, component: component.clone() }));
        let mut buffer = [0xa5; 68];
        assert_eq!(write_component(&component, &mut buffer, 1), Ok(67));
        assert_eq!(buffer[1..67], sheet[..66]);
        assert_eq!(write_component(&component, &mut buffer, 3), Err(11));
        let worse = Component { table: Table::new(vec![Task::new(8, 2, 8).late(7)]), ..component };
        assert_eq!(write_component(&worse, &mut [], 9), Err(9));
    }

    /// T = 8 and T = 9 on Π = 6 make 72; T = 1,048,576 on Π = 3 is above the limit. The bytes are the same whatever is stored.
    #[test]
    fn the_common_period_is_read_off_the_tasks_and_not_written() {
        let lines = "component 1 stated 6 2 4\ntask 8 2 8\ntask 9 1 9\ncomponent 2 asked 3 3\ntask 1048576 1 1\ncomponent 3 asked 5 4\nend 3";
        let sheet = text::bytes(lines).unwrap();
        let stored: Vec<Stored> = read(&sheet).unwrap().components.iter().map(|read| read.component.stored).collect();
        assert_eq!(stored, [Stored::Number(72), Stored::Above, Stored::Number(5)]);
        let long = at_place(&sheet, 1).unwrap();
        let mut buffer = [0xa5; 31];
        assert_eq!(write_component(&long.component, &mut buffer, 1), Ok(31));
        assert_eq!(buffer[1..], sheet[long.start..long.end]);
        let wrong = Component { stored: Stored::Number(3_145_728), ..long.component };
        assert_eq!(write_component(&wrong, &mut buffer, 1), Err(17));
        assert_eq!(write_component(&wrong, &mut [], 1), Err(17));
        assert_eq!(write_component(&Component { deadline: 4, ..wrong }, &mut [], 1), Err(9));
    }

    #[test]
    fn a_stated_lateness_is_at_least_1_and_leaves_room_for_the_work() {
        for period in 0..=5 {
            for work in 0..=5 {
                for deadline in 0..=5 {
                    for lateness in (0..=6).chain([u32::MAX]) {
                        let task = Task::new(period, work, deadline).late(lateness);
                        let sheet = [component_bytes(&Component { table: Table::new(vec![]), ..one(1) }), late_bytes(&task), end_bytes(1)].concat();
                        let right = 1 <= work && deadline <= period && 1 <= lateness && lateness as u64 + work as u64 <= deadline as u64;
                        assert_eq!(read(&sheet).err(), if right { None } else { Some((9, 18)) }, "{task:?}");
                    }
                }
            }
        }
    }

    #[test]
    fn a_late_task_is_refused_where_a_task_is() {
        let late = |lateness: u32| late_bytes(&Task::new(8, 2, 8).late(lateness));
        for lateness in [0, 1, 7] {
            assert_eq!(read(&[late(lateness), end_bytes(0)].concat()), Err((4, 0)));
            let full = Component { table: Table::new(vec![Task::new(8, 2, 8).late(6); 64]), ..one(1) };
            assert_eq!(read(&[component_bytes(&full), late(lateness), end_bytes(1)].concat()), Err((6, 18 + 64 * 20)));
            let pair = Pair { child: 1, parent: 2 };
            let behind = [component_bytes(&one(1)), component_bytes(&one(2)), pair_bytes(&pair), late(lateness), end_bytes(2)].concat();
            assert_eq!(read(&behind), Err((16, 76)));
            assert_eq!(read(&behind[..95]), Err((1, 76)));
        }
        let sound = [component_bytes(&one(1)), late(6), end_bytes(1)].concat();
        assert!(read(&sound).is_ok());
        for length in (0..=255).filter(|&length| length != 20) {
            let mut bytes = sound.clone();
            bytes[34] = length;
            assert_eq!(read(&bytes), Err((3, 34)));
        }
        for end in 34..54 {
            assert_eq!(read(&sound[..end]), Err((1, 34)));
        }
    }

    #[test]
    fn each_refusal_of_a_sheet_has_its_place() {
        let good = sheet_of(&[one(3), one(7)]);
        let with = |at: usize, byte: u8| {
            let mut bytes = good.clone();
            bytes[at] = byte;
            read(&bytes).unwrap_err()
        };
        assert_eq!(read(&good[..70]).unwrap_err(), (1, 68));
        assert_eq!(read(&good[..72]).unwrap_err(), (1, 68));
        assert_eq!(with(2, 9), (2, 0));
        assert_eq!(with(0, 14), (3, 0));
        assert_eq!(with(38, 3), (5, 34));
        assert_eq!(with(10, 5), (9, 0));
        assert_eq!(with(26, 9), (9, 18));
        assert_eq!(with(72, 3), (8, 68));
        assert_eq!(read(&good[18..]).unwrap_err(), (4, 0));
        assert_eq!(read(&[good.clone(), vec![0]].concat()).unwrap_err(), (8, 68));
        assert_eq!(read(&vec![0; BYTES + 1]).unwrap_err(), (14, 0));
        let mut full = one(1);
        full.table = Table { count: 65, tasks: vec![Task::new(8, 2, 8); 65] };
        assert_eq!(read(&sheet_of(&[full])).unwrap_err(), (6, 18 + 64 * 16));
        let many: Vec<Component> = (0..257).map(|n| Component { table: Table::new(vec![]), ..one(n) }).collect();
        assert_eq!(read(&sheet_of(&many)).unwrap_err(), (7, 256 * 18));
        assert_eq!(read(&sheet_of(&many[..256])).unwrap().components.len(), 256);
    }

    /// Components 1 to 3 without tasks, then the lines given.
    fn with_lines(lines: &str) -> Vec<u8> {
        let components: String = (1..=3).map(|number| format!("component {number} stated 6 2 4\n")).collect();
        text::bytes(&(components + lines)).unwrap()
    }

    #[test]
    fn pairs_are_read_back_and_chosen_by_their_place() {
        let sheet = with_lines("pair 1 3\npair 2 3\nend 3");
        assert_eq!(read(&sheet).unwrap().pairs, [Pair { child: 1, parent: 3 }, Pair { child: 2, parent: 3 }]);
        assert_eq!(pair_at(&sheet, 1), Ok(Pair { child: 2, parent: 3 }));
        assert_eq!(pair_at(&sheet, 2), Err((15, 0)));
        assert_eq!(pair_at(&sheet, u64::MAX), Err((15, 0)));
        assert_eq!(pair_at(&with_lines("end 2"), 0), Err((8, 54)));
        assert_eq!(at_place(&sheet, 2).map(|read| (read.start, read.end)), Ok((36, 54)));
    }

    #[test]
    fn a_pair_that_breaks_the_rules_of_pairs_is_16_at_the_pair() {
        let fault = |lines: &str| read(&with_lines(lines)).unwrap_err();
        assert_eq!(fault("pair 3 2\nend 3"), (16, 54));
        assert_eq!(fault("pair 2 2\nend 3"), (16, 54));
        assert_eq!(fault("pair 1 2\npair 1 3\nend 3"), (16, 62));
        assert_eq!(fault("pair 2 3\npair 1 3\nend 3"), (16, 62));
        assert_eq!(fault("pair 0 3\nend 3"), (16, 54));
        assert_eq!(fault("pair 3 4\nend 3"), (16, 54));
        assert_eq!(fault("pair 1 4\ncomponent 4 asked 1 1\nend 4"), (16, 54));
        assert_eq!(read(&text::bytes("pair 1 2\nend 0").unwrap()), Err((16, 0)));
    }

    #[test]
    fn what_stands_behind_a_pair_is_16_before_its_own_refusals() {
        let fault = |lines: &str| read(&with_lines(lines)).unwrap_err();
        assert_eq!(fault("pair 1 2\ncomponent 4 asked 1 1\nend 4"), (16, 62));
        assert_eq!(fault("pair 1 2\ncomponent 3 asked 0 0\nend 4"), (16, 62));
        assert_eq!(fault("pair 1 2\ntask 8 2 8\nend 3"), (16, 62));
        assert_eq!(fault("pair 1 2\ntask 8 0 9\nend 3"), (16, 62));
        let cut = with_lines("pair 1 2\ntask 8 2 8");
        assert_eq!(read(&cut[..cut.len() - 1]).unwrap_err(), (1, 62));
        let many: Vec<Component> = (0..257).map(|n| Component { table: Table::new(vec![]), ..one(n) }).collect();
        let mut bytes: Vec<u8> = many[..256].iter().flat_map(component_bytes).collect();
        bytes.extend(pair_bytes(&Pair { child: 0, parent: 255 }));
        bytes.extend(component_bytes(&many[256]));
        assert_eq!(read(&bytes).unwrap_err(), (16, 256 * 18 + 8));
    }

    #[test]
    fn a_pairs_kind_length_and_cut_come_first_and_the_end_counts_components_alone() {
        let sheet = with_lines("pair 1 2\nend 3");
        for length in (0..=255).filter(|&length| length != 8) {
            let mut bytes = sheet.clone();
            bytes[54] = length;
            assert_eq!(read(&bytes).unwrap_err(), (3, 54));
        }
        for end in 54..62 {
            assert_eq!(read(&sheet[..end]).unwrap_err(), (1, 54));
        }
        assert_eq!(read(&sheet[..62]).unwrap_err(), (1, 62));
        assert_eq!(read(&with_lines("pair 1 2\nend 4")).unwrap_err(), (8, 62));
        assert_eq!(read(&with_lines("pair 1 2\nend 3\npair 2 3")).unwrap_err(), (8, 62));
    }

    /// A sheet of so many children without tasks below a last component with so many tasks.
    fn filled(children: u16, tasks: usize) -> Vec<u8> {
        let child = |number| Component { number, capacity: Capacity::Asked, table: Table::new(vec![]), ..one(number) };
        let parent = Component { table: Table::new(vec![Task::new(8, 1, 8); tasks]), ..one(children) };
        let mut bytes: Vec<u8> = (0..children).flat_map(|number| component_bytes(&child(number))).chain(component_bytes(&parent)).collect();
        bytes.extend((0..children).flat_map(|number| pair_bytes(&Pair { child: number, parent: children })));
        bytes.extend(end_bytes(children + 1));
        bytes
    }

    #[test]
    fn tasks_and_children_together_are_64_at_most_whatever_their_capacities() {
        for (children, tasks) in [(64, 0), (1, 63), (32, 32)] {
            assert!(read(&filled(children, tasks)).is_ok());
        }
        for (children, tasks) in [(65, 0), (1, 64), (33, 32), (64, 1)] {
            let bytes = filled(children, tasks);
            assert_eq!(read(&bytes).unwrap_err(), (6, bytes.len() - 6 - 8));
        }
        let mut both = filled(1, 64);
        let pair = both.len() - 6 - 8;
        both[pair + 4] = 2;
        assert_eq!(read(&both).unwrap_err(), (16, pair));
    }

    #[test]
    fn a_pair_is_written_where_its_parent_is_larger() {
        let mut buffer = [0xa5; 10];
        assert_eq!(write_pair(&Pair { child: 1, parent: 258 }, &mut buffer, 1), Ok(9));
        assert_eq!(buffer, [0xa5, 8, 0, 6, 0, 1, 0, 2, 1, 0xa5]);
        assert_eq!(write_pair(&Pair { child: 1, parent: 2 }, &mut buffer, 3), Err(11));
        assert_eq!(write_pair(&Pair { child: 2, parent: 2 }, &mut buffer, 3), Err(16));
        assert_eq!(write_pair(&Pair { child: 3, parent: 2 }, &mut [], u64::MAX), Err(16));
    }
}
