//! Tasks, interfaces and components, their ranges (RULES 2) and their common period (RULES 3).

/// The largest period, deadline, common period and instant.
pub const LIMIT: u64 = 1_048_576;
/// The most tasks of a component.
pub const TASKS: u64 = 64;

/// A refusal's number (RULES 12).
pub type Refusal = u16;

#[derive(Clone, Copy, Debug, PartialEq, Eq)]
pub struct Task {
    pub period: u32,
    pub work: u32,
    pub deadline: u32,
    /// How many slots after its release a job may become ready.
    pub lateness: u32,
}

/// A task table as it is given: a count, which may be out of range, and the tasks of the places below it.
#[derive(Clone, Debug, PartialEq, Eq)]
pub struct Table {
    pub count: u64,
    pub tasks: Vec<Task>,
}

#[derive(Clone, Copy, Debug, PartialEq, Eq)]
pub struct Interface {
    pub period: u32,
    pub capacity: u32,
    pub deadline: u32,
}

#[derive(Clone, Copy, Debug, PartialEq, Eq)]
pub enum Capacity {
    Stated(u32),
    Asked,
}

/// The common period that a component stores: a number, or the mark that it is above the limit (RULES 3).
#[derive(Clone, Copy, Debug, PartialEq, Eq)]
pub enum Stored {
    Number(u32),
    Above,
}

#[derive(Clone, Debug, PartialEq, Eq)]
pub struct Component {
    pub number: u16,
    pub period: u32,
    pub capacity: Capacity,
    pub deadline: u32,
    pub stored: Stored,
    pub table: Table,
}

impl Task {
    /// A task whose jobs are ready at their release.
    pub fn new(period: u32, work: u32, deadline: u32) -> Task {
        Task { period, work, deadline, lateness: 0 }
    }

    /// The same task with jobs that become ready up to so many slots later.
    pub fn late(self, lateness: u32) -> Task {
        Task { lateness, ..self }
    }

    /// A task in range, else 9 (RULES 2).
    pub fn check(&self) -> Result<(), Refusal> {
        let fits = 1 <= self.work && self.work <= self.deadline && self.deadline <= self.period && self.period as u64 <= LIMIT;
        if fits && self.lateness <= self.deadline - self.work { Ok(()) } else { Err(9) }
    }

    /// The slots from the last slot at which a job may become ready to its deadline: D − J, of a task in range.
    pub fn span(&self) -> u32 {
        self.deadline - self.lateness
    }
}

impl Table {
    pub fn new(tasks: Vec<Task>) -> Table {
        Table { count: tasks.len() as u64, tasks }
    }

    /// 6 by the count, then 9 if one of the tasks is out of range.
    pub fn check(&self) -> Result<(), Refusal> {
        if self.count > TASKS {
            return Err(6);
        }
        self.tasks.iter().try_for_each(Task::check)
    }
}

impl Interface {
    pub fn new(period: u32, capacity: u32, deadline: u32) -> Interface {
        Interface { period, capacity, deadline }
    }

    /// An interface in range, else 9 (RULES 2).
    pub fn check(&self) -> Result<(), Refusal> {
        let fits = self.capacity <= self.deadline && self.deadline <= self.period && self.period as u64 <= LIMIT && self.deadline >= 1;
        if fits { Ok(()) } else { Err(9) }
    }
}

impl Component {
    /// A component that stores its right common period; its numbers may be out of range, and then no rule asks for one.
    pub fn new(number: u16, capacity: Capacity, period: u32, deadline: u32, table: Table) -> Component {
        Component { number, period, capacity, deadline, stored: Stored::Above, table }.right()
    }

    /// The component of a refused answer (RULES 11).
    pub fn refused() -> Component {
        Component { number: 0, period: 1, capacity: Capacity::Stated(1), deadline: 1, stored: Stored::Number(1), table: Table::new(vec![]) }
    }

    /// The interface at a capacity.
    pub fn interface(&self, capacity: u32) -> Interface {
        Interface { period: self.period, capacity, deadline: self.deadline }
    }

    /// 6, then 9; an asked capacity has no range of its own.
    pub fn check(&self) -> Result<(), Refusal> {
        if self.table.count > TASKS {
            return Err(6);
        }
        let capacity = match self.capacity {
            Capacity::Stated(units) => units,
            Capacity::Asked => 0,
        };
        self.interface(capacity).check()?;
        self.table.check()
    }

    /// L of the period and of the component's own tasks, worked out from nothing; above the limit it can only stay there.
    pub fn common(&self) -> Stored {
        let mut common = self.period as u64;
        for task in &self.table.tasks {
            if common <= LIMIT {
                common = common_multiple(common, task.period as u64);
            }
        }
        if common <= LIMIT { Stored::Number(common as u32) } else { Stored::Above }
    }

    /// The same component with its right common period stored.
    pub fn right(self) -> Component {
        Component { stored: self.common(), ..self }
    }

    /// 6, 9, then 17 if the stored common period isn't the right one.
    pub fn check_stored(&self) -> Result<(), Refusal> {
        self.check()?;
        if self.stored == self.common() { Ok(()) } else { Err(17) }
    }

    /// L (RULES 3), or 6, 9, 17, and 10 if it is above the limit.
    pub fn common_period(&self) -> Result<u64, Refusal> {
        self.check_stored()?;
        match self.common() {
            Stored::Number(common) => Ok(common as u64),
            Stored::Above => Err(10),
        }
    }
}

/// The greatest common divisor, by remainders until nothing remains (RULES 3).
pub fn common_divisor(a: u64, b: u64) -> u64 {
    if b == 0 { a } else { common_divisor(b, a % b) }
}

/// The least common multiple, 0 where one of the numbers is.
pub fn common_multiple(a: u64, b: u64) -> u64 {
    if a == 0 || b == 0 { 0 } else { a / common_divisor(a, b) * b }
}

/// Making a component from plain numbers: 6, 9 (RULES 13).
pub fn make(number: u16, capacity: Capacity, period: u32, deadline: u32, table: Table) -> Result<Component, Refusal> {
    let component = Component::new(number, capacity, period, deadline, table);
    component.check()?;
    Ok(component)
}

/// Adding a task behind the others: 6 if there is no place for it, then 9, of the component or of the task, then 17 (RULES 13).
pub fn add_task(component: &Component, task: Task) -> Result<Component, Refusal> {
    if component.table.count >= TASKS {
        return Err(6);
    }
    component.check()?;
    task.check()?;
    component.check_stored()?;
    let mut edited = component.clone();
    edited.table.tasks.push(task);
    edited.table.count += 1;
    Ok(edited.right())
}

/// Removing the task of a number, so that those behind it close up: 6, 9, 17, 15 (RULES 13).
pub fn remove_task(component: &Component, place: u64) -> Result<Component, Refusal> {
    component.check_stored()?;
    if place >= component.table.count {
        return Err(15);
    }
    let mut edited = component.clone();
    edited.table.tasks.remove(place as usize);
    edited.table.count -= 1;
    Ok(edited.right())
}

#[cfg(test)]
mod tests {
    use super::*;

    fn component(period: u32, tasks: &[(u32, u32, u32)]) -> Component {
        let tasks = tasks.iter().map(|&(t, c, d)| Task::new(t, c, d)).collect();
        Component::new(1, Capacity::Asked, period, 1, Table::new(tasks))
    }

    fn storing(stored: Stored, component: Component) -> Component {
        Component { stored, ..component }
    }

    #[test]
    fn ranges_end_where_the_rules_say() {
        assert!(Task::new(1_048_576, 1, 1_048_576).check().is_ok());
        assert!(Task::new(1_048_577, 1, 1).check().is_err());
        assert!(Task::new(5, 0, 5).check().is_err());
        assert!(Task::new(5, 4, 3).check().is_err());
        assert!(Task::new(5, 4, 6).check().is_err());
        assert!(Task::new(8, 2, 8).late(6).check().is_ok());
        assert!(Task::new(8, 2, 8).late(7).check().is_err());
        assert!(Task::new(8, 8, 8).check().is_ok());
        assert!(Task::new(8, 8, 8).late(1).check().is_err());
        assert!(Task::new(8, 9, 8).late(u32::MAX).check().is_err());
        assert!(Task::new(1_048_576, 1, 1_048_576).late(1_048_575).check().is_ok());
        assert!(Task::new(8, 2, 8).late(u32::MAX).check().is_err());
        assert!(Interface::new(1_048_576, 0, 1).check().is_ok());
        assert!(Interface::new(1, 0, 0).check().is_err());
        assert!(Interface::new(4, 3, 2).check().is_err());
        assert!(Interface::new(4, 3, 5).check().is_err());
    }

    #[test]
    fn the_common_period_is_the_least_multiple() {
        for a in 1..40u32 {
            for b in 1..40u32 {
                let least = (1..).find(|m| m % a == 0 && m % b == 0).unwrap();
                assert_eq!(component(a, &[(b, 1, 1)]).common_period(), Ok(least as u64));
            }
        }
        assert_eq!(component(1, &[(4, 2, 4), (7, 3, 7)]).common_period(), Ok(28));
        assert_eq!(component(9, &[]).common_period(), Ok(9));
    }

    #[test]
    fn the_limit_of_the_common_period() {
        assert_eq!(component(1, &[(1_048_576, 1, 1)]).common_period(), Ok(LIMIT));
        assert_eq!(component(3, &[(1_048_576, 1, 1)]).common_period(), Err(10));
    }

    #[test]
    fn edits_keep_the_order_of_tasks() {
        let start = component(6, &[(8, 2, 8), (4, 1, 4), (5, 1, 5)]);
        let fewer = remove_task(&start, 1).unwrap();
        assert_eq!(fewer, component(6, &[(8, 2, 8), (5, 1, 5)]));
        let more = add_task(&fewer, Task::new(4, 1, 4)).unwrap();
        assert_eq!(more, component(6, &[(8, 2, 8), (5, 1, 5), (4, 1, 4)]));
        assert_eq!(remove_task(&start, 3), Err(15));
        let late = Task::new(8, 2, 8).late(6);
        assert_eq!(add_task(&fewer, late).unwrap().table.tasks[2], late);
        assert_eq!(add_task(&fewer, Task::new(8, 2, 8).late(7)), Err(9));
        assert_eq!(remove_task(&add_task(&fewer, late).unwrap(), 0).unwrap().table.tasks[1], late);
        let full = component(6, &[(8, 2, 8); 64]);
        assert_eq!(add_task(&full, Task::new(0, 0, 0)), Err(6));
    }

    #[test]
    fn a_made_component_stores_its_common_period() {
        let table = |tasks: &[(u32, u32, u32)]| component(1, tasks).table;
        let made = |period, tasks: &[(u32, u32, u32)]| make(7, Capacity::Asked, period, 4, table(tasks)).map(|made| made.stored);
        assert_eq!(made(6, &[]), Ok(Stored::Number(6)));
        assert_eq!(made(6, &[(8, 2, 8), (9, 1, 9)]), Ok(Stored::Number(72)));
        assert_eq!(made(16, &[(1_048_576, 1, 1)]), Ok(Stored::Number(1_048_576)));
        // 17 · 61,681 is one above the limit, and 3 · 5 · 5 · 11 · 31 · 41 one below
        assert_eq!(made(17, &[(61_681, 1, 1)]), Ok(Stored::Above));
        assert_eq!(made(75, &[(341, 1, 1), (41, 1, 1)]), Ok(Stored::Number(1_048_575)));
        assert_eq!(made(1_048_573, &[(1_048_571, 1, 1), (1_048_559, 1, 1), (1, 1, 1)]), Ok(Stored::Above));
        assert_eq!(made(3, &[]), Err(9));
        assert_eq!(made(6, &[(0, 0, 0)]), Err(9));
        assert_eq!(make(7, Capacity::Stated(5), 6, 4, table(&[])), Err(9));
        assert_eq!(make(7, Capacity::Stated(5), 6, 4, Table { count: 65, tasks: vec![Task::new(8, 2, 8); 64] }), Err(6));
        assert_eq!(Component::refused(), make(0, Capacity::Stated(1), 1, 1, table(&[])).unwrap());
    }

    /// Π = 6 with a task of T = 8: L is 24.
    #[test]
    fn every_other_stored_value_is_17_behind_9_and_before_the_rest() {
        let start = component(6, &[(8, 2, 8)]);
        for stored in (0..=1_000).map(Stored::Number).chain([Stored::Above, Stored::Number(1_048_576), Stored::Number(u32::MAX)]) {
            let given = storing(stored, start.clone());
            let right = stored == Stored::Number(24);
            assert_eq!(given.common_period(), if right { Ok(24) } else { Err(17) });
            assert_eq!(add_task(&given, Task::new(9, 1, 9)).map(|more| more.stored), if right { Ok(Stored::Number(72)) } else { Err(17) });
            assert_eq!(remove_task(&given, 0).map(|fewer| fewer.stored), if right { Ok(Stored::Number(6)) } else { Err(17) });
            assert_eq!(remove_task(&given, 1), Err(if right { 15 } else { 17 }));
            assert_eq!(add_task(&given, Task::new(9, 1, 10)), Err(9));
            assert_eq!(Component { deadline: 7, ..given.clone() }.common_period(), Err(9));
            let full = Component { table: Table::new(vec![Task::new(8, 2, 8); 64]), ..given.clone() };
            assert_eq!(add_task(&full, Task::new(9, 1, 9)), Err(6));
            assert_eq!(Component { table: Table { count: 65, ..full.table }, ..given }.check_stored(), Err(6));
        }
    }

    /// Π = 17 with T = 61,681 has an L of 1,048,577: not even that number is right there.
    #[test]
    fn above_the_limit_only_the_mark_is_right() {
        let long = component(17, &[(61_681, 1, 1)]);
        for number in [0, 17, 1_048_576, 1_048_577, u32::MAX] {
            assert_eq!(storing(Stored::Number(number), long.clone()).common_period(), Err(17));
        }
        assert_eq!(long.check_stored(), Ok(()));
        assert_eq!(long.common_period(), Err(10));
        let longer = add_task(&long, Task::new(2, 1, 2)).unwrap();
        assert_eq!(longer, component(17, &[(61_681, 1, 1), (2, 1, 2)]));
        assert_eq!(longer.stored, Stored::Above);
        assert_eq!(remove_task(&longer, 1).unwrap().stored, Stored::Above);
        assert_eq!(remove_task(&longer, 0).unwrap().stored, Stored::Number(34));
        assert_eq!(remove_task(&long, 1), Err(15));
        let largest = component(1_048_576, &[]);
        assert_eq!(largest.common_period(), Ok(LIMIT));
        assert_eq!(storing(Stored::Above, largest.clone()).common_period(), Err(17));
        assert_eq!(add_task(&largest, Task::new(3, 1, 3)).unwrap().stored, Stored::Above);
    }
}
