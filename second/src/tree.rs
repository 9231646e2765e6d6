//! Components inside components (RULES 7): each is judged with its own tasks and its children's interfaces.

use crate::judge::{judge, Judgement, Verdict};
use crate::numbers::{Component, Interface, Task};
use crate::sheet::{Pair, Sheet};
use std::cell::OnceCell;

/// What is said of a component in the tree.
#[derive(Clone, Copy, Debug, PartialEq, Eq)]
pub enum Judged {
    /// One of its children isn't accepted.
    Waiting,
    /// The common period of its workload is too long.
    Long,
    /// What judging it with its workload answers.
    Answered(Judgement),
}

impl Judged {
    pub fn verdict(&self) -> Option<Verdict> {
        match self {
            Judged::Answered(judgement) => Some(judgement.verdict),
            _ => None,
        }
    }

    /// The capacity of an accepted component.
    pub fn capacity(&self) -> Option<u32> {
        match self {
            Judged::Answered(Judgement { verdict: Verdict::Accepted, capacity, .. }) => Some(*capacity),
            _ => None,
        }
    }
}

/// A child's interface as a task of its parent; none at capacity 0.
pub fn as_task(child: &Interface) -> Option<Task> {
    (child.capacity > 0).then(|| Task::new(child.period, child.capacity, child.deadline))
}

/// A component with more tasks behind its own; it stores the common period of them all.
pub fn with_tasks(component: &Component, more: impl IntoIterator<Item = Task>) -> Component {
    let mut whole = component.clone();
    whole.table.tasks.extend(more);
    whole.table.count = whole.table.tasks.len() as u64;
    whole.right()
}

/// A workload that doesn't wait, judged.
pub fn judged(workload: &Component) -> Judged {
    judge(workload).map_or(Judged::Long, Judged::Answered)
}

/// The components of a sheet with their children, each judged when it is first asked for.
pub struct Tree {
    pub components: Vec<Component>,
    children: Vec<Vec<usize>>,
    answers: Vec<OnceCell<Judged>>,
}

impl Tree {
    /// The tree of components in the sheet's order and pairs that keep the rules of RULES 10.
    pub fn new(components: Vec<Component>, pairs: &[Pair]) -> Tree {
        let place = |number: u16| components.iter().position(|component| component.number == number).expect("a component of the sheet");
        let mut children = vec![vec![]; components.len()];
        for pair in pairs {
            children[place(pair.parent)].push(place(pair.child));
        }
        let answers = vec![OnceCell::new(); components.len()];
        Tree { components, children, answers }
    }

    pub fn of(sheet: &Sheet) -> Tree {
        Tree::new(sheet.components.iter().map(|read| read.component.clone()).collect(), &sheet.pairs)
    }

    /// The places of a component's children, by rising number.
    pub fn children(&self, place: usize) -> &[usize] {
        &self.children[place]
    }

    /// The component with its workload as its tasks; none where it waits.
    pub fn workload(&self, place: usize) -> Option<Component> {
        let mut more = vec![];
        for &child in &self.children[place] {
            let capacity = self.judged(child).capacity()?;
            more.extend(as_task(&self.components[child].interface(capacity)));
        }
        Some(with_tasks(&self.components[place], more))
    }

    /// Waiting comes before the workload's common period.
    pub fn judged(&self, place: usize) -> Judged {
        *self.answers[place].get_or_init(|| self.workload(place).map_or(Judged::Waiting, |workload| judged(&workload)))
    }
}

#[cfg(test)]
mod tests {
    use super::*;
    use crate::judge::Margin;
    use crate::{sheet, text};
    use Verdict::{Accepted, Short};

    fn said(verdict: Verdict, capacity: u32, margin: Margin) -> Judged {
        Judged::Answered(Judgement { verdict, capacity, margin })
    }

    fn tree(lines: &str) -> Tree {
        Tree::of(&sheet::read(&text::bytes(lines).unwrap()).unwrap())
    }

    fn answers(lines: &str) -> Vec<Judged> {
        let tree = tree(lines);
        (0..tree.components.len()).map(|place| tree.judged(place)).collect()
    }

    fn tasks(tree: &Tree, place: usize) -> Vec<(u32, u32, u32)> {
        tree.workload(place).unwrap().table.tasks.iter().map(|task| (task.period, task.work, task.deadline)).collect()
    }

    #[test]
    fn two_levels_accepted() {
        let lines = "component 1 stated 6 2 4\ntask 8 2 8\ncomponent 2 stated 1 1 1\ntask 4 2 4\npair 1 2\nend 2";
        assert_eq!(answers(lines), [said(Accepted, 2, Some((0, 8))), said(Accepted, 1, Some((0, 4)))]);
        assert_eq!(tasks(&tree(lines), 1), [(4, 2, 4), (6, 2, 4)]);
        assert_eq!(tasks(&tree(lines), 0), [(8, 2, 8)]);
    }

    #[test]
    fn a_short_child_makes_every_level_above_it_wait() {
        let lines = "component 1 stated 6 2 4\ntask 8 2 7\ncomponent 2 stated 1 1 1\ntask 4 2 4\ncomponent 3 stated 1 1 1\npair 1 2\npair 2 3\nend 3";
        assert_eq!(answers(lines), [said(Short(7), 2, Some((-1, 7))), Judged::Waiting, Judged::Waiting]);
        assert_eq!(tree(lines).workload(1), None);
    }

    #[test]
    fn children_stand_behind_the_own_tasks_by_rising_number() {
        let lines = "component 1 stated 6 2 4\ncomponent 2 stated 5 1 5\ncomponent 3 stated 7 6 7\ncomponent 9 stated 1 1 1\ntask 8 1 8\n\
                     pair 1 9\npair 2 3\npair 3 9\nend 4";
        assert_eq!(tasks(&tree(lines), 3), [(8, 1, 8), (6, 2, 4), (7, 6, 7)]);
        assert_eq!(tasks(&tree(lines), 2), [(5, 1, 5)]);
    }

    #[test]
    fn a_child_with_capacity_0_adds_nothing() {
        let lines = "component 1 asked 1048575 9\ncomponent 2 stated 1048573 0 1\ncomponent 3 stated 6 2 4\ntask 8 2 8\npair 1 3\npair 2 3\nend 3";
        assert_eq!(tasks(&tree(lines), 2), [(8, 2, 8)]);
        assert_eq!(tree(lines).judged(2), said(Accepted, 2, Some((0, 8))));
        let alone = "component 1 asked 6 4\ncomponent 2 asked 6 4\npair 1 2\nend 2";
        assert_eq!(answers(alone), [said(Accepted, 0, None); 2]);
    }

    /// Component 1 needs 3 of 6 by 4; as the task (6, 3, 4) of component 2 that asks for all of Π = 2: supply of (2, 2, 2) at 4 is
    /// 4, of (2, 1, 2) it is 1.
    #[test]
    fn an_asked_child_uses_the_capacity_found() {
        let lines = "component 1 asked 6 4\ntask 8 2 7\ncomponent 2 asked 2 2\npair 1 2\nend 2";
        assert_eq!(answers(lines), [said(Accepted, 3, Some((1, 7))), said(Accepted, 2, Some((1, 4)))]);
        assert_eq!(tasks(&tree(lines), 1), [(6, 3, 4)]);
    }

    #[test]
    fn waiting_comes_before_a_common_period_that_is_too_long() {
        let parent = "component 5 stated 3 3 3\ntask 1048576 1 1\npair 4 5\nend 2";
        let below = |child: &str| answers(&format!("component 4 {child}\n{parent}"));
        assert_eq!(below("asked 6 4\ntask 4 2 2"), [said(Verdict::None, 0, None), Judged::Waiting]);
        assert_eq!(below("stated 6 4 4\ntask 4 2 2"), [said(Short(2), 4, Some((-2, 2))), Judged::Waiting]);
        assert_eq!(below("stated 3 3 3\ntask 1048576 1 1"), [Judged::Long, Judged::Waiting]);
        assert_eq!(below("stated 6 2 4\ntask 8 2 8")[1], Judged::Long);
    }

    #[test]
    fn a_childs_period_counts_in_the_common_period() {
        let lines = "component 1 stated 3 1 3\ncomponent 2 stated 1048576 1 1\npair 1 2\nend 2";
        assert_eq!(answers(lines)[1], Judged::Long);
        assert_eq!(answers(&lines.replace("pair 1 2\n", ""))[1], said(Accepted, 1, None));
    }
}
