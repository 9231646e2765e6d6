//! Demand of a task table (RULES 4).

use crate::numbers::{Refusal, Table, LIMIT};

/// Each task whose span has passed by t adds its C for the first job and again for every whole T after it. The table is in range.
pub fn demand(table: &Table, t: u64) -> u64 {
    let mut sum = 0;
    for task in &table.tasks {
        let span = task.span() as u64;
        if t >= span {
            sum += ((t - span) / task.period as u64 + 1) * task.work as u64;
        }
    }
    sum
}

/// The operation, refused in the order of RULES 13: 6 and 9 by the table, then 9 by t.
pub fn answer(table: &Table, t: u64) -> Result<u64, Refusal> {
    table.check()?;
    if t > LIMIT {
        return Err(9);
    }
    Ok(demand(table, t))
}

#[cfg(test)]
mod tests {
    use super::*;
    use crate::exhaust::tasks;
    use crate::numbers::Task;

    fn table(tasks: &[(u32, u32, u32)]) -> Table {
        Table::new(tasks.iter().map(|&(t, c, d)| Task::new(t, c, d)).collect())
    }

    #[test]
    fn figures_7_and_8() {
        let one = table(&[(6, 3, 5)]);
        let found: Vec<u64> = [4, 5, 10, 11].iter().map(|&t| demand(&one, t)).collect();
        assert_eq!(found, [0, 3, 3, 6]);
        assert_eq!(demand(&table(&[(4, 2, 4), (7, 3, 7)]), 14), 12);
    }

    /// Counted one by one: the deadlines up to t of a task that releases its first job J slots before slot 0 and another each T slots.
    #[test]
    fn demand_counts_the_densest_arrivals() {
        for task in tasks(6) {
            for t in 0..40 {
                let releases = (0..).map(|k| k * task.period as i64 - task.lateness as i64);
                let jobs = releases.take_while(|release| release + task.deadline as i64 <= t).count() as u64;
                assert_eq!(demand(&Table::new(vec![task]), t as u64), jobs * task.work as u64);
            }
        }
    }

    /// No job that is ready within t slots and due in them is left out: the stretch may begin anywhere between the releases, and of the
    /// jobs due by its end those count that can be ready in it.
    #[test]
    fn demand_is_the_most_that_can_become_ready_and_fall_due_within_a_stretch() {
        for task in tasks(4) {
            for t in 0..20 {
                let due_from = |begin: i64| {
                    let releases = (-10..20).map(|k| k * task.period as i64);
                    let inside = releases.filter(|release| release + task.lateness as i64 >= begin && release + task.deadline as i64 <= begin + t);
                    inside.count() as u64 * task.work as u64
                };
                let most = (0..task.period as i64).map(due_from).max();
                assert_eq!(Some(demand(&Table::new(vec![task]), t as u64)), most);
            }
        }
    }

    #[test]
    fn a_task_is_due_as_early_as_its_lateness_makes_it() {
        let late = |lateness| Table::new(vec![Task::new(8, 2, 8).late(lateness)]);
        assert_eq!([6, 7, 14, 15].map(|t| demand(&late(1), t)), [0, 2, 2, 4]);
        assert_eq!([1, 2, 9, 10].map(|t| demand(&late(6), t)), [0, 2, 2, 4]);
        assert_eq!(answer(&late(7), 0), Err(9));
    }
}
