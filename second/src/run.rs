//! The run of jobs on a trace, slot by slot (RULES 9).

use crate::numbers::{Refusal, Table};
use crate::trace;

/// The most jobs of a walk.
pub const JOBS: usize = 1_024;

/// The four job lists as they are given: a job's task, release slot, readiness slot and work stand at one place of each.
#[derive(Clone, Debug, Default, PartialEq, Eq)]
pub struct Jobs {
    pub tasks: Vec<u32>,
    pub releases: Vec<i32>,
    pub ready: Vec<u32>,
    pub works: Vec<u32>,
}

/// One job; in the order of the lists, which is by release and then by task.
#[derive(Clone, Copy, Debug, PartialEq, Eq, PartialOrd, Ord)]
pub struct Job {
    pub release: i64,
    pub task: u32,
    pub ready: u64,
    pub work: u32,
}

impl Jobs {
    /// The lists of jobs in the order given. A slot that no list can hold becomes the nearest that it can.
    pub fn of(jobs: &[Job]) -> Jobs {
        Jobs {
            tasks: jobs.iter().map(|job| job.task).collect(),
            releases: jobs.iter().map(|job| job.release.clamp(i32::MIN as i64, i32::MAX as i64) as i32).collect(),
            ready: jobs.iter().map(|job| job.ready.min(u32::MAX as u64) as u32).collect(),
            works: jobs.iter().map(|job| job.work).collect(),
        }
    }

    /// How many jobs there are; none where the lists aren't as long as each other.
    pub fn count(&self) -> Option<usize> {
        let count = self.tasks.len();
        [self.releases.len(), self.ready.len(), self.works.len()].iter().all(|&other| other == count).then_some(count)
    }

    /// A job, of lists that are as long as each other.
    pub fn job(&self, place: usize) -> Job {
        Job { release: self.releases[place] as i64, task: self.tasks[place], ready: self.ready[place] as u64, work: self.works[place] }
    }
}

#[derive(Clone, Debug, PartialEq, Eq)]
pub struct Walked {
    /// The first miss: its instant and task.
    pub miss: Option<(u64, u32)>,
    pub served: u64,
    pub idle: u64,
    /// Each job's work left at the stop.
    pub left: Vec<u32>,
}

/// 12 unless the lists keep RULES 9: as long as each other, not too long, each job as its task allows, ready between its release and J
/// slots later, in order, apart, released before the trace's end. The table is in range.
pub fn check_jobs(table: &Table, jobs: &Jobs, slots: usize) -> Result<(), Refusal> {
    let count = jobs.count().filter(|&count| count <= JOBS).ok_or(12u16)?;
    let mut last: Vec<Option<i64>> = vec![None; table.tasks.len()];
    for place in 0..count {
        let job = jobs.job(place);
        let task = table.tasks.get(job.task as usize).ok_or(12u16)?;
        let worked = 1 <= job.work && job.work <= task.work;
        let readied = job.release <= job.ready as i64 && job.ready as i64 <= job.release + task.lateness as i64;
        let before = place.checked_sub(1).map(|before| jobs.job(before));
        let in_order = before.map_or(true, |before| (before.release, before.task) <= (job.release, job.task));
        let apart = last[job.task as usize].map_or(true, |before| job.release >= before + task.period as i64);
        if !worked || !readied || !in_order || !apart || job.release >= slots as i64 {
            return Err(12);
        }
        last[job.task as usize] = Some(job.release);
    }
    Ok(())
}

/// The deadlines, each D after its release; of checked lists they are 1 or later.
fn deadlines(table: &Table, jobs: &Jobs) -> Vec<i64> {
    jobs.tasks.iter().zip(&jobs.releases).map(|(&number, &release)| release as i64 + table.tasks[number as usize].deadline as i64).collect()
}

/// The jobs that wait in a slot: ready by then, and with work left.
fn waiting<'a>(jobs: &'a Jobs, left: &'a [u32], slot: usize) -> impl Iterator<Item = usize> + 'a {
    (0..left.len()).filter(move |&job| jobs.ready[job] as usize <= slot && left[job] > 0)
}

/// The job that a supplied slot serves: of those waiting the one with the earliest deadline, of equal ones the lowest task's.
fn next(jobs: &Jobs, deadlines: &[i64], left: &[u32], slot: usize) -> Option<usize> {
    waiting(jobs, left, slot).min_by_key(|&job| (deadlines[job], jobs.tasks[job]))
}

/// The run itself, on checked lists, to the first miss or the trace's end.
pub fn run(table: &Table, jobs: &Jobs, trace: &[u8]) -> Walked {
    let deadlines = deadlines(table, jobs);
    let mut walked = Walked { miss: None, served: 0, idle: 0, left: jobs.works.clone() };
    for (slot, &supplied) in trace.iter().enumerate() {
        if supplied == 1 {
            match next(jobs, &deadlines, &walked.left, slot) {
                Some(job) => {
                    walked.left[job] -= 1;
                    walked.served += 1;
                }
                None => walked.idle += 1,
            }
        }
        let instant = slot as i64 + 1;
        let late = (0..deadlines.len()).filter(|&job| deadlines[job] == instant && walked.left[job] > 0);
        if let Some(number) = late.map(|job| jobs.tasks[job]).min() {
            walked.miss = Some((instant as u64, number));
            break;
        }
    }
    walked
}

/// The task that each slot of the trace serves, to its end whatever is missed.
pub fn served(table: &Table, jobs: &Jobs, trace: &[u8]) -> Vec<Option<u32>> {
    let deadlines = deadlines(table, jobs);
    let mut left = jobs.works.clone();
    trace.iter().enumerate().map(|(slot, &supplied)| {
        let job = if supplied == 1 { next(jobs, &deadlines, &left, slot) } else { None };
        job.map(|job| {
            left[job] -= 1;
            jobs.tasks[job]
        })
    }).collect()
}

/// What the walk of checked lists comes across.
#[derive(Default)]
pub struct Met {
    /// A unit goes to one of several waiting jobs with the same earliest deadline.
    pub tie: bool,
    /// Several tasks are late at the first miss.
    pub both_late: bool,
    /// A unit passes by a job that is released and not ready, though its deadline is earlier than that of the job served; or is idle
    /// while there is such a job.
    pub passed_by: bool,
    pub idle_by: bool,
    /// The first miss is of a job that was released before slot 0.
    pub early_miss: bool,
}

/// Looks through a run, what a set of calls has to reach. In a long trace only the miss is looked at.
pub fn met(table: &Table, jobs: &Jobs, trace: &[u8]) -> Met {
    let deadlines = deadlines(table, jobs);
    let walked = run(table, jobs, trace);
    let stop = walked.miss.map_or(trace.len(), |(instant, _)| instant as usize);
    let mut met = Met::default();
    for slot in (0..stop).filter(|&slot| trace.len() <= 100 && trace[slot] == 1) {
        let left = run(table, jobs, &trace[..slot]).left;
        let earliest = waiting(jobs, &left, slot).map(|job| deadlines[job]).min();
        let unready = || (0..left.len()).filter(|&job| (jobs.releases[job] as i64) <= slot as i64 && jobs.ready[job] as usize > slot);
        met.tie |= waiting(jobs, &left, slot).filter(|&job| Some(deadlines[job]) == earliest).count() > 1;
        met.passed_by |= earliest.map_or(false, |earliest| unready().any(|job| deadlines[job] < earliest));
        met.idle_by |= earliest.is_none() && unready().next().is_some();
    }
    if let Some((instant, _)) = walked.miss {
        let late: Vec<usize> = (0..deadlines.len()).filter(|&job| deadlines[job] == instant as i64 && walked.left[job] > 0).collect();
        met.both_late = late.len() > 1;
        met.early_miss = late.iter().any(|&job| jobs.releases[job] < 0);
    }
    met
}

/// The operation: 6, 9, 12, 13, and 11 unless the work-left buffer has one number for each job (RULES 13).
pub fn answer(table: &Table, jobs: &Jobs, trace: &[u8], left: u64) -> Result<Walked, Refusal> {
    table.check()?;
    check_jobs(table, jobs, trace.len())?;
    trace::check(trace)?;
    if left != jobs.tasks.len() as u64 {
        return Err(11);
    }
    Ok(run(table, jobs, trace))
}

#[cfg(test)]
mod tests {
    use super::*;
    use crate::numbers::Task;

    /// Jobs as (task, release, ready, work).
    fn jobs(all: &[(u32, i32, u32, u32)]) -> Jobs {
        let jobs: Vec<Job> = all.iter().map(|&(task, release, ready, work)| Job { task, release: release as i64, ready: ready as u64, work }).collect();
        Jobs::of(&jobs)
    }

    #[test]
    fn figure_12() {
        let table = Table::new(vec![Task::new(8, 2, 7)]);
        let walked = answer(&table, &jobs(&[(0, 0, 0, 2)]), &[0, 0, 0, 0, 0, 0, 1, 1], 1).unwrap();
        assert_eq!(walked, Walked { miss: Some((7, 0)), served: 1, idle: 0, left: vec![1] });
    }

    #[test]
    fn the_earliest_absolute_deadline_goes_first_and_ties_go_to_the_lower_task() {
        let table = Table::new(vec![Task::new(10, 3, 10), Task::new(10, 2, 4)]);
        let walked = answer(&table, &jobs(&[(0, 0, 0, 3), (1, 6, 6, 2)]), &[0, 0, 0, 0, 0, 0, 1, 1, 1, 1], 2).unwrap();
        assert_eq!(walked, Walked { miss: Some((10, 1)), served: 4, idle: 0, left: vec![0, 1] });
    }

    #[test]
    fn a_deadline_at_the_traces_end_counts_and_none_behind_it() {
        let table = Table::new(vec![Task::new(5, 1, 5)]);
        let jobs = jobs(&[(0, 0, 0, 1)]);
        assert_eq!(answer(&table, &jobs, &[0; 5], 1).unwrap().miss, Some((5, 0)));
        assert_eq!(answer(&table, &jobs, &[0; 4], 1).unwrap().miss, None);
        assert_eq!(answer(&table, &jobs, &[0; 0], 1), Err(12));
    }

    /// The figures of the request: table (8, 2, 8, 1) on the trace 0 0 0 0 0 0 1 1.
    #[test]
    fn a_job_released_before_slot_0_misses_where_a_later_one_does_not() {
        let table = Table::new(vec![Task::new(8, 2, 8).late(1)]);
        let walk = |all: &[(u32, i32, u32, u32)]| answer(&table, &jobs(all), &[0, 0, 0, 0, 0, 0, 1, 1], all.len() as u64);
        assert_eq!(walk(&[(0, -1, 0, 2)]), Ok(Walked { miss: Some((7, 0)), served: 1, idle: 0, left: vec![1] }));
        assert_eq!(walk(&[(0, 0, 1, 2)]), Ok(Walked { miss: None, served: 2, idle: 0, left: vec![0] }));
        assert_eq!(walk(&[(0, -2, 0, 2)]), Err(12));
    }

    #[test]
    fn a_unit_passes_by_a_job_that_is_not_ready() {
        let table = Table::new(vec![Task::new(6, 2, 5).late(3), Task::new(9, 2, 9)]);
        let both = jobs(&[(0, 0, 2, 2), (1, 0, 0, 2)]);
        let walked = answer(&table, &both, &[1, 0, 1, 1, 1], 2).unwrap();
        assert_eq!(walked, Walked { miss: None, served: 4, idle: 0, left: vec![0, 0] });
        assert_eq!(served(&table, &both, &[1, 0, 1, 1, 1]), [Some(1), None, Some(0), Some(0), Some(1)]);
        assert!(met(&table, &both, &[1, 0, 1, 1, 1]).passed_by);
        let alone = jobs(&[(0, 0, 2, 2)]);
        assert_eq!(answer(&table, &alone, &[1, 1, 1, 0, 0], 1).unwrap(), Walked { miss: Some((5, 0)), served: 1, idle: 2, left: vec![1] });
        assert!(met(&table, &alone, &[1, 1, 1, 0, 0]).idle_by);
    }

    #[test]
    fn readiness_lies_between_the_release_and_lateness_after_it() {
        let table = Table::new(vec![Task::new(9, 1, 9).late(3)]);
        let fits = |release: i32, ready: u32, slots: usize| check_jobs(&table, &jobs(&[(0, release, ready, 1)]), slots).is_ok();
        for release in -6..6 {
            for ready in 0..12u32 {
                let right = release <= ready as i32 && ready as i32 <= release + 3;
                assert_eq!(fits(release, ready, 6), right, "{release} {ready}");
            }
        }
        assert!(fits(5, 8, 6) && !fits(6, 6, 6));
        assert!(fits(-1, 0, 0) && fits(-1, 2, 0) && !fits(0, 0, 0) && !fits(-4, 0, 0));
        assert!(!fits(i32::MIN, 0, 6) && !fits(0, u32::MAX, 6) && !fits(i32::MAX, i32::MAX as u32, 6));
    }

    #[test]
    fn releases_are_ordered_and_kept_apart_as_signed_numbers() {
        let table = Table::new(vec![Task::new(4, 1, 4).late(3), Task::new(4, 1, 4).late(2)]);
        let fits = |all: &[(u32, i32, u32, u32)]| check_jobs(&table, &jobs(all), 9).is_ok();
        assert!(fits(&[(0, -3, 0, 1), (1, -2, 0, 1), (0, 1, 1, 1), (1, 2, 4, 1)]));
        assert!(!fits(&[(1, -2, 0, 1), (0, -3, 0, 1)]));
        assert!(!fits(&[(0, 0, 0, 1), (1, -1, 0, 1)]));
        assert!(fits(&[(0, -1, 0, 1), (1, -1, 0, 1)]) && !fits(&[(1, -1, 0, 1), (0, -1, 0, 1)]));
        assert!(fits(&[(0, -3, 0, 1), (0, 1, 1, 1)]) && !fits(&[(0, -3, 0, 1), (0, 0, 0, 1)]));
        assert!(!fits(&[(0, -3, 0, 1), (0, -2, 0, 1)]));
    }

    #[test]
    fn lists_of_unequal_length_are_12() {
        let table = Table::new(vec![Task::new(9, 1, 9).late(3)]);
        let whole = jobs(&[(0, 0, 0, 1)]);
        assert!(check_jobs(&table, &whole, 9).is_ok());
        let others = [
            Jobs { tasks: vec![], ..whole.clone() },
            Jobs { releases: vec![0, 9], ..whole.clone() },
            Jobs { ready: vec![], ..whole.clone() },
            Jobs { works: vec![1, 1], ..whole.clone() },
        ];
        assert!(others.iter().all(|jobs| check_jobs(&table, jobs, 99) == Err(12)));
    }
}
