//! Judging and the smallest capacity (RULES 7 and 8) by plain search: every instant, every capacity from 0 up.

use crate::demand::demand;
use crate::numbers::{Capacity, Component, Interface, Refusal, Table};
use crate::supply::supply;

#[derive(Clone, Copy, Debug, PartialEq, Eq)]
pub enum Verdict {
    Accepted,
    Short(u64),
    None,
}

/// A margin with its instant, or none.
pub type Margin = Option<(i64, u64)>;

/// What judging answers: the verdict, the capacity that it speaks of, which is 0 for none, and the margin at that capacity.
#[derive(Clone, Copy, Debug, PartialEq, Eq)]
pub struct Judgement {
    pub verdict: Verdict,
    pub capacity: u32,
    pub margin: Margin,
}

/// The first short instant, looked for up to L: RULES 7 says that none comes first after L.
pub fn first_short(interface: &Interface, table: &Table, common: u64) -> Option<u64> {
    (1..=common).find(|&t| demand(table, t) > supply(interface, t))
}

/// The smallest capacity from 0 to the deadline with no short instant.
pub fn smallest_capacity(component: &Component, common: u64) -> Option<u32> {
    (0..=component.deadline).find(|&capacity| first_short(&component.interface(capacity), &component.table, common).is_none())
}

/// The margin of RULES 8: only instants at which demand has just risen count, and of equal ones the first.
pub fn least_margin(interface: &Interface, table: &Table, common: u64) -> Margin {
    let mut least: Margin = None;
    let mut before = 0;
    for t in 1..=common {
        let asked = demand(table, t);
        if asked > before {
            let margin = supply(interface, t) as i64 - asked as i64;
            if least.map_or(true, |(smallest, _)| margin < smallest) {
                least = Some((margin, t));
            }
        }
        before = asked;
    }
    least
}

/// The operation of RULES 11: what a component would need, though it may state another capacity. Refused with 6, 9, 17, 10.
pub fn smallest(component: &Component) -> Result<Option<u32>, Refusal> {
    let common = component.common_period()?;
    Ok(smallest_capacity(component, common))
}

/// The operation of RULES 11: the stated capacity, or the one found, is judged and measured; without a capacity there is no margin.
/// Refused with 6, 9, 17, 10. The two parts of the answer are looked for as RULES 7 and RULES 8 say them, each by a loop of its own: one up
/// to the first short instant, one over all step instants up to L.
pub fn judge(component: &Component) -> Result<Judgement, Refusal> {
    let common = component.common_period()?;
    let measured = |verdict, capacity| {
        let margin = least_margin(&component.interface(capacity), &component.table, common);
        Judgement { verdict, capacity, margin }
    };
    Ok(match component.capacity {
        Capacity::Stated(units) => match first_short(&component.interface(units), &component.table, common) {
            Some(instant) => measured(Verdict::Short(instant), units),
            None => measured(Verdict::Accepted, units),
        },
        Capacity::Asked => match smallest_capacity(component, common) {
            Some(units) => measured(Verdict::Accepted, units),
            None => Judgement { verdict: Verdict::None, capacity: 0, margin: None },
        },
    })
}

#[cfg(test)]
mod tests {
    use super::*;
    use crate::chance::Chance;
    use crate::exhaust::{hardest, interfaces, tasks};
    use crate::numbers::Task;
    use crate::run::{check_jobs, run, Job, Jobs, JOBS};
    use crate::trace;

    fn component(interface: (u32, Option<u32>, u32), tasks: &[(u32, u32, u32)]) -> Component {
        let capacity = interface.1.map_or(Capacity::Asked, Capacity::Stated);
        let table = Table::new(tasks.iter().map(|&(t, c, d)| Task::new(t, c, d)).collect());
        Component::new(1, capacity, interface.0, interface.2, table)
    }

    fn said(verdict: Verdict, capacity: u32, margin: Margin) -> Result<Judgement, Refusal> {
        Ok(Judgement { verdict, capacity, margin })
    }

    #[test]
    fn figures_9_to_11() {
        let nine = component((1, Some(1), 1), &[(4, 2, 4), (7, 3, 7)]);
        assert_eq!(nine.common_period(), Ok(28));
        assert_eq!(judge(&nine), said(Verdict::Accepted, 1, Some((1, 8))));
        let ten = component((1, Some(1), 1), &[(2, 1, 2), (3, 2, 3)]);
        assert_eq!(judge(&ten), said(Verdict::Short(6), 1, Some((-1, 6))));
        let eleven = component((6, Some(2), 4), &[(8, 2, 7)]);
        assert_eq!(judge(&eleven), said(Verdict::Short(7), 2, Some((-1, 7))));
    }

    /// The figures of the request: (8, 2, 8, J) on (6, 2, 4), and asked with Π 6 and Δ 4.
    #[test]
    fn what_lateness_costs() {
        let of = |capacity, lateness| Component { table: Table::new(vec![Task::new(8, 2, 8).late(lateness)]), ..component((6, capacity, 4), &[(8, 2, 8)]) };
        let stated = |lateness| judge(&of(Some(2), lateness));
        assert_eq!(stated(0), said(Verdict::Accepted, 2, Some((0, 8))));
        assert_eq!(stated(1), said(Verdict::Short(7), 2, Some((-1, 7))));
        assert_eq!(stated(2), said(Verdict::Short(6), 2, Some((-2, 6))));
        assert_eq!(stated(6).map(|found| (found.verdict, found.capacity)), Ok((Verdict::Short(2), 2)));
        assert_eq!(stated(7), Err(9));
        let asked: Vec<Option<u32>> = (0..=6).map(|lateness| smallest(&of(None, lateness)).unwrap()).collect();
        assert_eq!(asked, [Some(2), Some(3), Some(3), Some(4), Some(4), None, None]);
    }

    #[test]
    fn no_tasks_ask_no_capacity_and_have_no_margin() {
        let empty = component((6, None, 4), &[]);
        assert_eq!(judge(&empty), said(Verdict::Accepted, 0, None));
    }

    /// The processor alone gives a unit a slot, so that supply at t is t.
    fn alone(tasks: &[(u32, u32, u32)]) -> Result<Judgement, Refusal> {
        judge(&component((1, Some(1), 1), tasks))
    }

    /// Up to L = 8 demand steps up at 2, 3, 4, 6 and 8: by 3 a job of (2, 1, 2) and (8, 3, 3) are due, 4 units in 3 slots, and by 4 another
    /// of (2, 1, 2) and (8, 2, 4), 7 units in 4. Then it gets better: 8 units by 6, 9 by 8. The margins are 1, -1, -3, -2, -1.
    #[test]
    fn the_margin_can_stand_behind_the_first_short_instant() {
        assert_eq!(alone(&[(2, 1, 2), (8, 3, 3), (8, 2, 4)]), said(Verdict::Short(3), 1, Some((-3, 4))));
    }

    /// Without (8, 2, 4) demand is 1, 4, 5, 6, 7 at those instants, and the margins are 1, -1, -1, 0, 1: the least is there at 3 and at 4.
    /// With (2, 2, 2) and (6, 2, 3) up to L = 6 demand is 2, 4, 6, 8 at 2, 3, 4, 6, and the margins are 0, -1, -2, -2: the least is there
    /// at 4 and at 6, both behind the first short instant.
    #[test]
    fn of_equal_margins_of_a_short_component_the_first_counts() {
        assert_eq!(alone(&[(2, 1, 2), (8, 3, 3)]), said(Verdict::Short(3), 1, Some((-1, 3))));
        assert_eq!(alone(&[(2, 2, 2), (6, 2, 3)]), said(Verdict::Short(3), 1, Some((-2, 4))));
    }

    /// (8, 1, 3) and (8, 7, 7) up to L = 8: 1 unit by 3 and 8 by 7, and no other step, so the margins are 2 and -1. (4, 1, 4) and (8, 7, 8):
    /// 1 by 4 and 2 + 7 by 8, which is L, so 3 and -1.
    #[test]
    fn the_last_step_instant_can_be_the_first_short_one() {
        assert_eq!(alone(&[(8, 1, 3), (8, 7, 7)]), said(Verdict::Short(7), 1, Some((-1, 7))));
        assert_eq!(alone(&[(4, 1, 4), (8, 7, 8)]), said(Verdict::Short(8), 1, Some((-1, 8))));
    }

    /// With 5 in the place of that 7 the margins are 2 and 1 at 3 and 7; with 4 in the place of the other one 3 and 2 at 4 and 8.
    #[test]
    fn the_last_step_instant_can_be_the_tightest_of_an_accepted_component() {
        assert_eq!(alone(&[(8, 1, 3), (8, 5, 7)]), said(Verdict::Accepted, 1, Some((1, 7))));
        assert_eq!(alone(&[(4, 1, 4), (8, 4, 8)]), said(Verdict::Accepted, 1, Some((2, 8))));
    }

    /// Π = Δ = 2 with (8, 1, 5) and (8, 2, 8): 1 unit is due by 5 and 3 by 8. Capacity 0 gives none. Capacity 1 has G = 2 and gives 2 units by
    /// 5 and 3 by 8, so the margins are 1 and 0. With capacity 2, which is Δ, they are 4 and 5: less at the other instant.
    #[test]
    fn an_asked_component_is_measured_at_the_capacity_found() {
        let tasks = [(8, 1, 5), (8, 2, 8)];
        assert_eq!(judge(&component((2, None, 2), &tasks)), said(Verdict::Accepted, 1, Some((0, 8))));
        assert_eq!(judge(&component((2, Some(2), 2), &tasks)), said(Verdict::Accepted, 2, Some((4, 5))));
        assert_eq!(judge(&component((2, Some(0), 2), &tasks)), said(Verdict::Short(5), 0, Some((-3, 8))));
    }

    /// (4, 2, 2) with Π = 6 and Δ = 4: (6, 4, 4) has G = 2, so 2 slots are sure of nothing, and no capacity is more than 4.
    #[test]
    fn where_no_capacity_is_enough_there_is_no_margin() {
        assert_eq!(judge(&component((6, None, 4), &[(4, 2, 2)])), said(Verdict::None, 0, None));
    }

    /// On the worst trace with the densest arrivals the first miss is exactly at the first short instant, whenever the jobs become ready,
    /// and an accepted component misses nothing over two common periods.
    #[test]
    fn the_constructed_run_misses_exactly_at_the_first_short_instant() {
        let mut chance = Chance::new(1);
        let mut earlier = 0;
        for _ in 0..3_000 {
            let (interface, table) = small(&mut chance);
            let common = with(interface, &table).common_period().unwrap();
            let slots = 2 * common;
            let (_, row) = trace::worst(&interface, slots);
            let short = first_short(&interface, &table, common);
            for _ in 0..3 {
                let turns: Vec<u64> = (0..=slots + 3).map(|_| chance.next() >> 8).collect();
                let jobs = hardest(&table, slots, |earliest, latest, turn| earliest + turns[turn as usize] % (latest - earliest + 1));
                assert!(jobs.tasks.len() > JOBS || check_jobs(&table, &jobs, slots as usize).is_ok());
                let miss = run(&table, &jobs, &row).miss.map(|(instant, _)| instant);
                assert_eq!(miss, short, "{interface:?} {table:?} {jobs:?}");
            }
            let on_time = Table::new(table.tasks.iter().map(|task| task.late(0)).collect());
            earlier += (short < first_short(&interface, &on_time, common) && short.is_some()) as u32;
        }
        assert!(earlier > 100, "{earlier}");
    }

    /// All runs there are of a small component over a few slots: every legal trace, every release, readiness and work. The earliest miss
    /// of all of them is at the first short instant, and where that lies behind the slots none misses.
    #[test]
    fn of_all_runs_the_earliest_miss_is_at_the_first_short_instant() {
        let slots = 6;
        for interface in interfaces(3) {
            let traces: Vec<Vec<u8>> = legal_traces(&interface, slots);
            for task in tasks(3) {
                let table = Table::new(vec![task]);
                let runs = every_arrival(&task, slots);
                let misses = traces.iter().flat_map(|row| runs.iter().filter_map(|jobs| run(&table, jobs, row).miss));
                let earliest = misses.map(|(instant, _)| instant).min();
                let common = with(interface, &table).common_period().unwrap();
                let short = first_short(&interface, &table, common).filter(|&short| short <= slots as u64);
                assert_eq!(earliest, short, "{interface:?} {task:?}");
            }
        }
    }

    fn legal_traces(interface: &Interface, slots: usize) -> Vec<Vec<u8>> {
        let rows = (0..1u32 << slots).map(|bits| (0..slots).map(|slot| (bits >> slot & 1) as u8).collect::<Vec<u8>>());
        rows.filter(|row| (0..interface.period as u64).any(|offset| trace::legal(interface, offset, row))).collect()
    }

    /// Every legal arrival of a task's jobs over so many slots.
    fn every_arrival(task: &Task, slots: usize) -> Vec<Jobs> {
        let mut all: Vec<Vec<Job>> = vec![vec![]];
        for release in -(task.lateness as i64)..slots as i64 {
            for begun in all.clone() {
                if begun.last().map_or(false, |last| release < last.release + task.period as i64) {
                    continue;
                }
                for ready in release.max(0)..=release + task.lateness as i64 {
                    for work in 1..=task.work {
                        all.push(begun.iter().copied().chain([Job { release, task: 0, ready: ready as u64, work }]).collect());
                    }
                }
            }
        }
        let lists: Vec<Jobs> = all.iter().map(|jobs| Jobs::of(jobs)).collect();
        assert!(lists.iter().all(|jobs| check_jobs(&Table::new(vec![*task]), jobs, slots).is_ok()));
        lists
    }

    /// Any legal arrivals on any legal trace never miss before the first short instant.
    #[test]
    fn no_legal_run_misses_earlier() {
        let mut chance = Chance::new(2);
        for _ in 0..20_000 {
            let (interface, table) = small(&mut chance);
            let common = with(interface, &table).common_period().unwrap();
            let first = first_short(&interface, &table, common);
            let slots = chance.below(60) as usize + 1;
            let (offset, row) = legal_trace(&mut chance, &interface, slots);
            assert!(trace::legal(&interface, offset, &row));
            let jobs = arrivals(&mut chance, &table, slots as i64);
            check_jobs(&table, &jobs, slots).unwrap();
            if let Some((instant, _)) = run(&table, &jobs, &row).miss {
                assert!(first.map_or(false, |short| short <= instant), "{interface:?} {table:?} {jobs:?} {row:?}");
            }
        }
    }

    fn with(interface: Interface, table: &Table) -> Component {
        Component::new(0, Capacity::Stated(interface.capacity), interface.period, interface.deadline, table.clone())
    }

    fn small(chance: &mut Chance) -> (Interface, Table) {
        let period = chance.between(1, 8) as u32;
        let deadline = chance.between(1, period as u64) as u32;
        let capacity = chance.between(0, deadline as u64) as u32;
        let tasks = (0..chance.between(1, 3)).map(|_| {
            let period = chance.between(1, 9) as u32;
            let deadline = chance.between(1, period as u64) as u32;
            let work = chance.between(1, deadline.min(3) as u64) as u32;
            let lateness = if chance.one_in(2) { 0 } else { chance.between(0, (deadline - work) as u64) as u32 };
            Task::new(period, work, deadline).late(lateness)
        });
        (Interface::new(period, capacity, deadline), Table::new(tasks.collect()))
    }

    /// A random trace, mended by supplying slots from the end of each period's first Δ places until it is legal.
    fn legal_trace(chance: &mut Chance, interface: &Interface, slots: usize) -> (u64, Vec<u8>) {
        let offset = chance.below(interface.period as u64);
        let mut row: Vec<u8> = (0..slots).map(|_| chance.one_in(4) as u8).collect();
        for slot in (0..slots).rev() {
            if trace::legal(interface, offset, &row) {
                break;
            }
            row[slot] = 1;
        }
        (offset, row)
    }

    fn arrivals(chance: &mut Chance, table: &Table, slots: i64) -> Jobs {
        let mut all = vec![];
        for (number, task) in table.tasks.iter().enumerate() {
            let lateness = task.lateness as i64;
            let mut release = if chance.one_in(2) { -lateness } else { chance.below(6 + lateness as u64) as i64 - lateness };
            while release < slots {
                let ready = chance.between(release.max(0) as u64, (release + lateness) as u64);
                all.push(Job { release, task: number as u32, ready, work: chance.between(1, task.work as u64) as u32 });
                release += task.period as i64 + if chance.one_in(3) { chance.below(5) as i64 } else { 0 };
            }
        }
        all.sort();
        Jobs::of(&all)
    }
}
