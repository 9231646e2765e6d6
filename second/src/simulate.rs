//! Runs of whole trees (RULES 9, service inside components): from a legal supply of the topmost down, each child's trace is what its
//! parent's run serves of its task. They are printed as calls that must answer that nothing misses and that each service is legal.

use crate::calls::{row_text, walk_text};
use crate::chance::Chance;
use crate::nested::{self, Nest};
use crate::numbers::{Interface, Table, Task};
use crate::run::{self, Job, Jobs};
use crate::tree::{as_task, Tree};

/// A component of a tree: its interface with the capacity that it has, its own tasks, and its children by rising number.
struct Level {
    interface: Interface,
    own: Vec<Task>,
    children: Vec<usize>,
    inside: bool,
}

/// The levels of a tree; a capacity that the tree doesn't find is 0.
fn levels(nest: &Nest) -> Vec<Level> {
    let tree = Tree::new(nest.components.clone(), &nest.pairs);
    (0..tree.components.len()).map(|place| {
        let component = &tree.components[place];
        Level {
            interface: component.interface(tree.judged(place).capacity().unwrap_or(0)),
            own: component.table.tasks.clone(),
            children: tree.children(place).to_vec(),
            inside: nest.pairs.iter().any(|pair| pair.child == component.number),
        }
    }).collect()
}

/// The calls about a run of each tree of a nest whose components are all accepted.
pub fn calls(c: &mut Chance) -> Vec<String> {
    let nest = nested::accepted(c);
    runs(c, &levels(&nest))
}

/// The calls about a run of each tree: its supply is legal, and then all the way down.
fn runs(c: &mut Chance, levels: &[Level]) -> Vec<String> {
    let mut calls = vec![];
    for top in (0..levels.len()).filter(|&place| !levels[place].inside) {
        let slots = c.pick(&[10, 60, 120, 400]);
        let slots = c.below(slots + 1);
        let dense = c.one_in(2);
        let offset = c.below(levels[top].interface.period as u64);
        let trace = supply(c, &levels[top].interface, offset, slots);
        calls.push(legal(&levels[top].interface, offset, &trace));
        let mut run = Run { c, levels, slots, dense, calls };
        run.descend(top, Some(0), &trace);
        calls = run.calls;
    }
    calls
}

/// A legal trace at an offset. Each period gives its capacity early, late or by chance within its deadline, the places outside the trace
/// counted too, and sometimes more than that.
fn supply(c: &mut Chance, interface: &Interface, offset: u64, slots: u64) -> Vec<u8> {
    let (period, capacity, deadline) = (interface.period as u64, interface.capacity as u64, interface.deadline as u64);
    let more = c.one_in(3);
    let worst = c.one_in(3);
    let mut line = vec![];
    while (line.len() as u64) < offset + slots {
        let manner = match (worst, line.is_empty()) {
            (true, true) => 0,
            (true, false) => 1,
            _ => c.below(3),
        };
        let mut given = vec![0; period as usize];
        let mut left = capacity;
        for place in 0..deadline {
            let chosen = match manner {
                0 => left > 0,
                1 => deadline - place <= left,
                _ => c.below(deadline - place) < left,
            };
            given[place as usize] = chosen as u8;
            left -= chosen as u64;
        }
        if more {
            given.iter_mut().filter(|unit| **unit == 0).for_each(|unit| *unit = c.one_in(5) as u8);
        }
        line.extend(given);
    }
    line[offset as usize..(offset + slots) as usize].to_vec()
}

fn legal(interface: &Interface, offset: u64, trace: &[u8]) -> String {
    format!("legal {} {} {} {offset} {}", interface.period, interface.capacity, interface.deadline, row_text(trace))
}

/// A run under way. In a dense one each task and each child comes as early and asks for as much as it may; its own jobs are then released
/// J slots before the first release.
struct Run<'a> {
    c: &'a mut Chance,
    levels: &'a [Level],
    slots: u64,
    dense: bool,
    calls: Vec<String>,
}

impl Run<'_> {
    /// The runs of a component and of all below it, from its first release and its trace.
    fn descend(&mut self, place: usize, first: Option<u64>, trace: &[u8]) {
        let levels = self.levels;
        let level = &levels[place];
        let mut table = Table::new(level.own.clone());
        let mut jobs = vec![];
        for (number, task) in level.own.iter().enumerate() {
            jobs.extend(first.into_iter().flat_map(|first| self.own_jobs(number as u32, task, first)));
        }
        let mut inside = vec![];
        for &child in &level.children {
            let interface = levels[child].interface;
            let task = as_task(&interface).map(|task| {
                table.tasks.push(task);
                table.count += 1;
                table.tasks.len() as u32 - 1
            });
            let begins = task.and(first).and_then(|first| self.first_release(first, interface.period as u64));
            let budgets = begins.into_iter().flat_map(|begins| (begins..self.slots).step_by(interface.period as usize));
            jobs.extend(budgets.map(|slot| Job { release: slot as i64, task: task.expect("it begins"), ready: slot, work: interface.capacity }));
            inside.push((child, task, begins));
        }
        jobs.sort();
        let jobs = Jobs::of(&jobs);
        self.calls.push(walk_text(&table, &jobs, trace));
        let served = run::served(&table, &jobs, trace);
        for (child, task, begins) in inside {
            let handed: Vec<u8> = served.iter().map(|served| (task.is_some() && *served == task) as u8).collect();
            if let Some(begins) = begins.filter(|&begins| begins <= self.slots) {
                self.calls.push(legal(&levels[child].interface, 0, &handed[begins as usize..]));
            }
            self.descend(child, begins, &handed);
        }
    }

    /// A child's first release: with its parent's, a little or much later, or none.
    fn first_release(&mut self, first: u64, period: u64) -> Option<u64> {
        let later = match self.c.below(8) {
            _ if self.dense => 0,
            0 => return None,
            1 | 2 => 0,
            3 | 4 => self.c.below(period + 1),
            5 => self.c.below(self.slots + 3),
            _ => self.c.below(20),
        };
        Some(first + later)
    }

    /// A legal arrival of an own task's jobs of which none is ready before an instant, though one may be released before it.
    fn own_jobs(&mut self, number: u32, task: &Task, first: u64) -> Vec<Job> {
        let mut jobs = vec![];
        let lateness = task.lateness as u64;
        let later = [0, 0, 1, 7, lateness, self.c.below(lateness + 1), self.slots];
        let mut release = (first + if self.dense { 0 } else { self.c.pick(&later) }) as i64 - lateness as i64;
        let manner = self.c.below(3);
        while release < self.slots as i64 {
            let less = !self.dense && self.c.one_in(3);
            let work = if less { self.c.between(1, task.work as u64) as u32 } else { task.work };
            let (earliest, latest) = (release.max(first as i64) as u64, (release + lateness as i64) as u64);
            let ready = match manner {
                0 => earliest,
                1 => latest,
                _ => self.c.between(earliest, latest),
            };
            jobs.push(Job { release, task: number, ready, work });
            let pause = !self.dense && self.c.one_in(3);
            release += (task.period as u64 + if pause { self.c.below(6) } else { 0 }) as i64;
        }
        jobs
    }
}

#[cfg(test)]
mod tests {
    use super::*;
    use crate::calls::{answer, parse, Call};
    use crate::judge::{judge, smallest, Verdict};
    use crate::nested::component;
    use crate::numbers::{Capacity, Component};
    use crate::sheet::Pair;

    /// How many calls are answered as a run of an accepted tree must answer them, and how many aren't.
    fn counted(calls: &[String]) -> (usize, usize) {
        let good = calls.iter().filter(|call| {
            let said = answer(parse(call).unwrap());
            said == "ok yes" || said.starts_with("ok none ")
        });
        let good = good.count();
        (good, calls.len() - good)
    }

    #[test]
    fn no_run_of_an_accepted_tree_misses_and_each_service_is_legal() {
        let mut c = Chance::new(11);
        let mut all = 0;
        for _ in 0..1_000 {
            let made = calls(&mut c);
            assert_eq!(counted(&made), (made.len(), 0));
            all += made.len();
        }
        assert!(all > 4_000);
    }

    /// Of so many trees, changed by chance, those with a run in which something is found out.
    fn found_out(trees: usize, change: impl Fn(&mut Nest)) -> usize {
        let mut c = Chance::new(12);
        let found = (0..trees).filter(|_| {
            let mut nest = nested::accepted(&mut c);
            change(&mut nest);
            counted(&runs(&mut c, &stated_levels(&nest))).1 > 0
        });
        found.count()
    }

    /// Both components are accepted by their own tasks alone. The parent is sure of 2 units in 4 slots, and its own task may take both.
    #[test]
    fn a_parent_judged_without_its_child_is_found_out() {
        let components = vec![component(1, (4, Some(2), 4), &[(12, 2, 12)]), component(2, (4, Some(3), 4), &[(4, 2, 4)])];
        assert!(components.iter().all(|component| judge(component).is_ok_and(|found| found.verdict == Verdict::Accepted)));
        let nest = Nest { components, pairs: vec![Pair { child: 1, parent: 2 }] };
        let mut c = Chance::new(14);
        let found: usize = (0..20).map(|_| counted(&runs(&mut c, &stated_levels(&nest))).1).sum();
        assert!(found > 0);
    }

    /// Trees in which each capacity is the smallest for the component's own tasks alone.
    #[test]
    fn trees_judged_without_children_are_found_out() {
        let found = found_out(300, |nest| {
            for component in &mut nest.components {
                component.capacity = Capacity::Stated(smallest(component).unwrap().unwrap_or(0));
            }
        });
        assert!(found > 50, "{found}");
    }

    /// Trees in which one component, the first that needs some capacity, has a unit less than it needs.
    #[test]
    fn a_unit_less_is_found_out() {
        let found = found_out(300, |nest| {
            let tree = Tree::new(nest.components.clone(), &nest.pairs);
            let needs: Vec<u32> = (0..nest.components.len()).map(|place| smallest(&tree.workload(place).unwrap()).unwrap().unwrap()).collect();
            for (place, component) in nest.components.iter_mut().enumerate() {
                component.capacity = Capacity::Stated(tree.judged(place).capacity().unwrap());
            }
            if let Some(place) = needs.iter().position(|&need| need > 0) {
                nest.components[place].capacity = Capacity::Stated(needs[place] - 1);
            }
        });
        assert!(found > 40, "{found}");
    }

    /// Trees in which each capacity is the smallest for jobs that are ready at their release.
    #[test]
    fn trees_judged_as_if_on_time_are_found_out() {
        let found = found_out(300, |nest| {
            let punctual = |component: &Component| {
                let tasks = component.table.tasks.iter().map(|task| task.late(0)).collect();
                Component { capacity: Capacity::Asked, table: Table::new(tasks), ..component.clone() }
            };
            let tree = Tree::new(nest.components.iter().map(punctual).collect(), &nest.pairs);
            for (place, component) in nest.components.iter_mut().enumerate() {
                component.capacity = Capacity::Stated(tree.judged(place).capacity().unwrap());
            }
        });
        assert!(found > 20, "{found}");
    }

    /// Jobs that are released before slot 0, and before their component's first release where that is later, are among those played.
    #[test]
    fn jobs_are_released_before_they_may_be_ready() {
        let mut c = Chance::new(15);
        let (mut before_0, mut late, mut behind_the_end) = (0, 0, 0);
        for call in (0..300).flat_map(|_| calls(&mut c)) {
            if let Call::Walk(_, jobs, row, _) = parse(&call).unwrap() {
                let all: Vec<Job> = (0..jobs.tasks.len()).map(|place| jobs.job(place)).collect();
                before_0 += all.iter().any(|job| job.release < 0) as u32;
                late += all.iter().any(|job| job.ready as i64 > job.release.max(0)) as u32;
                behind_the_end += all.iter().any(|job| job.ready >= row.len() as u64) as u32;
            }
        }
        assert!(before_0 > 50 && late > 50 && behind_the_end > 20, "{before_0} {late} {behind_the_end}");
    }

    /// The levels with the capacities stated, whatever the tree says.
    fn stated_levels(nest: &Nest) -> Vec<Level> {
        let stated = |component: &Component| match component.capacity {
            Capacity::Stated(units) => component.interface(units),
            Capacity::Asked => panic!("a capacity that is asked"),
        };
        levels(nest).into_iter().zip(&nest.components).map(|(level, component)| Level { interface: stated(component), ..level }).collect()
    }
}
