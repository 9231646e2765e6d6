//! The calls of docs/CALLS.md and their answers, one line each.

use crate::judge::{self, Judgement, Verdict};
use crate::numbers::{add_task, common_divisor, make, remove_task, Capacity, Component, Interface, Refusal, Stored, Table, Task, TASKS};
use crate::run::{self, Jobs};
use crate::sheet::{Fault, Pair};
use crate::tree::{Judged, Tree};
use crate::{demand, host, sheet, supply, trace};

/// What a byte of a lent buffer holds before the call.
pub const BUFFER_BYTE: u8 = 0xa5;
/// What a number of the work-left buffer holds before the call.
pub const LEFT_NUMBER: u32 = 77;
/// The largest buffer that a call lends.
pub const BUFFER: u64 = 4_096;
/// The most edits of one call.
pub const EDITS: u64 = 200;
/// The buffer that an edited component is written into.
const EDITED: usize = 2_048;

/// The words of a line, taken one by one.
struct Words<'a> {
    rest: std::str::Split<'a, char>,
}

type Parsed<T> = Result<T, String>;

impl<'a> Words<'a> {
    fn word(&mut self) -> Parsed<&'a str> {
        self.rest.next().ok_or_else(|| "the line ends too early".to_string())
    }

    fn number(&mut self, limit: u64) -> Parsed<u64> {
        let word = self.word()?;
        match word.parse::<u64>() {
            Ok(value) if value <= limit && !word.starts_with('+') => Ok(value),
            _ => Err(format!("`{word}` is not a number up to {limit}")),
        }
    }

    /// A slot that may lie before slot 0.
    fn signed(&mut self) -> Parsed<i32> {
        let word = self.word()?;
        match word.parse::<i32>() {
            Ok(value) if !word.starts_with('+') && word.starts_with('-') == (value < 0) => Ok(value),
            _ => Err(format!("`{word}` is not a number from {} to {}", i32::MIN, i32::MAX)),
        }
    }

    /// A time or an amount of units.
    fn long(&mut self) -> Parsed<u32> {
        Ok(self.number(u32::MAX as u64)? as u32)
    }

    /// A place, a length or a count.
    fn place(&mut self) -> Parsed<u64> {
        self.number(u64::MAX)
    }

    fn task(&mut self) -> Parsed<Task> {
        Ok(Task::new(self.long()?, self.long()?, self.long()?).late(self.long()?))
    }

    fn table(&mut self) -> Parsed<Table> {
        let count = self.place()?;
        let given = count.min(TASKS);
        let tasks = (0..given).map(|_| self.task()).collect::<Parsed<Vec<Task>>>()?;
        Ok(Table { count, tasks })
    }

    fn interface(&mut self) -> Parsed<Interface> {
        Ok(Interface::new(self.long()?, self.long()?, self.long()?))
    }

    /// A component's number.
    fn own(&mut self) -> Parsed<u16> {
        Ok(self.number(u16::MAX as u64)? as u16)
    }

    fn capacity(&mut self) -> Parsed<Capacity> {
        match self.word()? {
            "stated" => Ok(Capacity::Stated(self.long()?)),
            "asked" => Ok(Capacity::Asked),
            other => Err(format!("`{other}` is neither `stated` nor `asked`")),
        }
    }

    fn stored(&mut self) -> Parsed<Stored> {
        if self.rest.clone().next() == Some("above") {
            return self.word().map(|_| Stored::Above);
        }
        self.long().map(Stored::Number)
    }

    fn component(&mut self) -> Parsed<Component> {
        let (number, capacity) = (self.own()?, self.capacity()?);
        Ok(Component { number, period: self.long()?, capacity, deadline: self.long()?, stored: self.stored()?, table: self.table()? })
    }

    fn edit(&mut self) -> Parsed<Edit> {
        match self.word()? {
            "add" => Ok(Edit::Add(self.task()?)),
            "remove" => Ok(Edit::Remove(self.place()?)),
            other => Err(format!("`{other}` is neither `add` nor `remove`")),
        }
    }

    fn edits(&mut self) -> Parsed<Vec<Edit>> {
        let count = self.number(EDITS)?;
        (0..count).map(|_| self.edit()).collect()
    }

    fn pair(&mut self) -> Parsed<Pair> {
        Ok(Pair { child: self.own()?, parent: self.own()? })
    }

    fn list<T>(&mut self, one: impl Fn(&mut Self) -> Parsed<T>) -> Parsed<Vec<T>> {
        let count = self.number(2_048)?;
        (0..count).map(|_| one(self)).collect()
    }

    fn jobs(&mut self) -> Parsed<Jobs> {
        Ok(Jobs { tasks: self.list(Self::long)?, releases: self.list(Self::signed)?, ready: self.list(Self::long)?, works: self.list(Self::long)? })
    }

    fn row(&mut self) -> Parsed<Vec<u8>> {
        let word = self.word()?;
        if word == "-" {
            return Ok(vec![]);
        }
        let pairs = word.as_bytes().chunks(2).map(|pair| match pair {
            [high, low] => Some(nibble(*high)? << 4 | nibble(*low)?),
            _ => None,
        });
        pairs.collect::<Option<Vec<u8>>>().ok_or_else(|| "a row of bytes is not pairs of hex digits".to_string())
    }

    fn buffer(&mut self) -> Parsed<Vec<u8>> {
        Ok(vec![BUFFER_BYTE; self.number(BUFFER)? as usize])
    }
}

fn nibble(digit: u8) -> Option<u8> {
    match digit {
        b'0'..=b'9' => Some(digit - b'0'),
        b'a'..=b'f' => Some(digit - b'a' + 10),
        _ => None,
    }
}

pub fn row_text(row: &[u8]) -> String {
    if row.is_empty() {
        return "-".to_string();
    }
    row.iter().map(|byte| format!("{byte:02x}")).collect()
}

pub fn task_text(task: &Task) -> String {
    format!("{} {} {} {}", task.period, task.work, task.deadline, task.lateness)
}

pub fn table_text(table: &Table) -> String {
    let tasks: String = table.tasks.iter().map(|task| format!(" {}", task_text(task))).collect();
    format!("{}{tasks}", table.count)
}

fn list_text<T: std::fmt::Display>(values: &[T]) -> String {
    values.iter().fold(values.len().to_string(), |text, value| format!("{text} {value}"))
}

/// The four lists of a walk.
pub fn jobs_text(jobs: &Jobs) -> String {
    [list_text(&jobs.tasks), list_text(&jobs.releases), list_text(&jobs.ready), list_text(&jobs.works)].join(" ")
}

/// A walk whose work-left buffer has a number for each job.
pub fn walk_text(table: &Table, jobs: &Jobs, trace: &[u8]) -> String {
    format!("walk {} {} {} {}", table_text(table), jobs_text(jobs), row_text(trace), jobs.tasks.len())
}

fn capacity_text(capacity: Capacity) -> String {
    match capacity {
        Capacity::Stated(units) => format!("stated {units}"),
        Capacity::Asked => "asked".to_string(),
    }
}

fn stored_text(stored: Stored) -> String {
    match stored {
        Stored::Number(common) => common.to_string(),
        Stored::Above => "above".to_string(),
    }
}

pub fn component_text(component: &Component) -> String {
    let Component { number, period, capacity, deadline, stored, table } = component;
    format!("{number} {} {period} {deadline} {} {}", capacity_text(*capacity), stored_text(*stored), table_text(table))
}

/// A component without its stored common period, as `make` takes it.
pub fn plain_text(component: &Component) -> String {
    let Component { number, period, capacity, deadline, stored: _, table } = component;
    format!("{number} {} {period} {deadline} {}", capacity_text(*capacity), table_text(table))
}

pub fn edit_text(edit: &Edit) -> String {
    match edit {
        Edit::Add(task) => format!("add {}", task_text(task)),
        Edit::Remove(place) => format!("remove {place}"),
    }
}

/// One edit of a component.
#[derive(Clone, Copy, Debug)]
pub enum Edit {
    Add(Task),
    Remove(u64),
}

/// A call, taken apart.
#[derive(Clone, Debug)]
pub enum Call {
    CheckTask(Task),
    CheckTable(Table),
    CheckInterface(Interface),
    CheckComponent(Component),
    Dedicated,
    CommonDivisor(u32, u32),
    CommonPeriod(Component),
    Demand(Table, u32),
    Supply(Interface, u32),
    AddTask(Component, Task),
    RemoveTask(Component, u64),
    Make(u16, Capacity, u32, u32, Table),
    Edit(Vec<u8>, u64, Vec<Edit>),
    Legal(Interface, u32, Vec<u8>),
    Walk(Table, Jobs, Vec<u8>, u64),
    Judge(Component),
    Capacity(Component),
    Sheet(Vec<u8>),
    Part(Vec<u8>, u64),
    Read(Vec<u8>, u64),
    Write(Component, Vec<u8>, u64),
    WriteEnd(u64, Vec<u8>, u64),
    ReadPair(Vec<u8>, u64),
    WritePair(Pair, Vec<u8>, u64),
    Workload(Vec<u8>, u64),
    Tree(Vec<u8>, u64),
    Host(Vec<u8>, u64, Vec<u8>, u64),
    HostCheck(Vec<u8>, Vec<u8>, u64),
    HostAll(Vec<u8>, Vec<u8>, u64),
}

/// The call of a line.
pub fn parse(line: &str) -> Parsed<Call> {
    let mut words = Words { rest: line.split(' ') };
    let w = &mut words;
    let call = match w.word()? {
        "check_task" => Call::CheckTask(w.task()?),
        "check_table" => Call::CheckTable(w.table()?),
        "check_interface" => Call::CheckInterface(w.interface()?),
        "check_component" => Call::CheckComponent(w.component()?),
        "dedicated" => Call::Dedicated,
        "common_divisor" => Call::CommonDivisor(w.long()?, w.long()?),
        "common_period" => Call::CommonPeriod(w.component()?),
        "demand" => Call::Demand(w.table()?, w.long()?),
        "supply" => Call::Supply(w.interface()?, w.long()?),
        "add_task" => Call::AddTask(w.component()?, w.task()?),
        "remove_task" => Call::RemoveTask(w.component()?, w.place()?),
        "make" => Call::Make(w.own()?, w.capacity()?, w.long()?, w.long()?, w.table()?),
        "edit" => Call::Edit(w.row()?, w.place()?, w.edits()?),
        "legal" => Call::Legal(w.interface()?, w.long()?, w.row()?),
        "walk" => {
            let (table, jobs) = (w.table()?, w.jobs()?);
            Call::Walk(table, jobs, w.row()?, w.number(2_048)?)
        }
        "judge" => Call::Judge(w.component()?),
        "capacity" => Call::Capacity(w.component()?),
        "sheet" => Call::Sheet(w.row()?),
        "part" => Call::Part(w.row()?, w.place()?),
        "read" => Call::Read(w.row()?, w.place()?),
        "write" => Call::Write(w.component()?, w.buffer()?, w.place()?),
        "write_end" => Call::WriteEnd(w.place()?, w.buffer()?, w.place()?),
        "read_pair" => Call::ReadPair(w.row()?, w.place()?),
        "write_pair" => Call::WritePair(w.pair()?, w.buffer()?, w.place()?),
        "workload" => Call::Workload(w.row()?, w.place()?),
        "tree" => Call::Tree(w.row()?, w.place()?),
        "host" => Call::Host(w.row()?, w.place()?, w.buffer()?, w.place()?),
        "host_check" => Call::HostCheck(w.row()?, w.buffer()?, w.place()?),
        "host_all" => Call::HostAll(w.row()?, w.buffer()?, w.place()?),
        other => return Err(format!("`{other}` is no call")),
    };
    match words.rest.next() {
        Some(_) => Err("the line goes on after the call".to_string()),
        None => Ok(call),
    }
}

/// `ok` and the values, or the refusal and what stands for the values then.
fn answered<T>(answer: Result<T, Refusal>, refused: T, values: impl Fn(T) -> String) -> String {
    match answer {
        Ok(value) => format!("ok {}", values(value)),
        Err(refusal) => format!("refused {refusal} {}", values(refused)),
    }
}

/// `ok` and the values, or the refusal alone.
fn answered_alone<T>(answer: Result<T, Refusal>, values: impl Fn(T) -> String) -> String {
    match answer {
        Ok(value) => format!("ok {}", values(value)),
        Err(refusal) => format!("refused {refusal}"),
    }
}

/// `ok` and the values, or the refusal with its place and what stands for the values then.
fn faulted<T>(answer: Result<T, Fault>, refused: T, values: impl Fn(T) -> String) -> String {
    match answer {
        Ok(value) => format!("ok {}", values(value)),
        Err((refusal, place)) => format!("refused {refusal} {place} {}", values(refused)),
    }
}

fn checked(answer: Result<(), Refusal>) -> String {
    answer.map_or_else(|refusal| format!("refused {refusal}"), |()| "ok".to_string())
}

fn whole(component: Component) -> String {
    format!("{} zero", component_text(&component))
}

fn judgement_text(Judgement { verdict, capacity, margin }: Judgement) -> String {
    let measured = margin.map_or("none".to_string(), |(least, instant)| format!("{least} {instant}"));
    match verdict {
        Verdict::Accepted => format!("accepted {capacity} {measured}"),
        Verdict::Short(instant) => format!("short {instant} {capacity} {measured}"),
        Verdict::None => format!("none {capacity} {measured}"),
    }
}

fn smallest_text(units: Option<u32>) -> String {
    units.map_or("none".to_string(), |units| units.to_string())
}

fn walked_text(walked: run::Walked) -> String {
    let miss = walked.miss.map_or("none".to_string(), |(instant, task)| format!("miss {instant} {task}"));
    let left: String = walked.left.iter().map(|work| format!(" {work}")).collect();
    format!("{miss} {} {} {}{left}", walked.served, walked.idle, walked.left.len())
}

fn walk(table: &Table, jobs: &Jobs, row: &[u8], length: u64) -> String {
    let untouched = run::Walked { miss: None, served: 0, idle: 0, left: vec![LEFT_NUMBER; length as usize] };
    answered(run::answer(table, jobs, row, length), untouched, walked_text)
}

fn part(row: &[u8], place: u64) -> String {
    let part = sheet::at_place(row, place).map(|read| row[read.start..read.end].to_vec());
    faulted(part, vec![], |bytes| row_text(&bytes))
}

/// A component after one edit after the other, or what the first refused one is refused with.
pub fn edited(component: Component, edits: &[Edit]) -> Result<Component, Refusal> {
    edits.iter().try_fold(component, |component, edit| match edit {
        Edit::Add(task) => add_task(&component, *task),
        Edit::Remove(place) => remove_task(&component, *place),
    })
}

/// A component of a sheet, edited, and then all that can be asked about it.
fn edit(row: &[u8], place: u64, edits: &[Edit]) -> String {
    let read = match sheet::at_place(row, place) {
        Ok(read) => read.component,
        Err((refusal, place)) => return format!("refused {refusal} {place} {}", whole(Component::refused())),
    };
    match edited(read, edits) {
        Ok(component) => format!("ok {}", about(component)),
        Err(refusal) => format!("refused {refusal} {}", whole(Component::refused())),
    }
}

/// A component, what judging it answers, its smallest capacity, each or its refusal, and its records as they are written.
fn about(component: Component) -> String {
    let refused = |refusal: Refusal| format!("refused {refusal}");
    let judged = judge::judge(&component).map_or_else(refused, judgement_text);
    let smallest = judge::smallest(&component).map_or_else(refused, smallest_text);
    let mut buffer = [BUFFER_BYTE; EDITED];
    let end = sheet::write_component(&component, &mut buffer, 0).expect("room for 64 tasks") as usize;
    format!("{} {judged} {smallest} {}", whole(component), row_text(&buffer[..end]))
}

/// The tree of a sheet that has a component at a place: the sheet's refusal, then 15.
fn tree_with(row: &[u8], place: u64) -> Result<(Tree, usize), Fault> {
    let tree = Tree::of(&sheet::read(row)?);
    if place < tree.components.len() as u64 { Ok((tree, place as usize)) } else { Err((15, 0)) }
}

fn workload(row: &[u8], place: u64) -> String {
    let workload = tree_with(row, place).map(|(tree, place)| tree.workload(place));
    faulted(workload, Some(Component::refused()), |workload| workload.map_or("waiting".to_string(), whole))
}

fn in_tree(row: &[u8], place: u64) -> String {
    let (tree, place) = match tree_with(row, place) {
        Ok(found) => found,
        Err((refusal, place)) => return format!("refused {refusal} {place}"),
    };
    let number = tree.components[place].number;
    match tree.judged(place) {
        Judged::Waiting => format!("ok {number} waiting"),
        Judged::Long => "refused 10 0".to_string(),
        Judged::Answered(judgement) => format!("ok {number} {}", judgement_text(judgement)),
    }
}

fn written(mut buffer: Vec<u8>, write: impl Fn(&mut [u8]) -> Result<u64, Refusal>) -> String {
    let place = write(&mut buffer);
    answered(place, 0, |place| format!("{place} {}", row_text(&buffer)))
}

/// The number that a call of the host returns, and its buffer.
fn replied(mut buffer: Vec<u8>, call: impl Fn(&mut [u8]) -> Refusal) -> String {
    let refusal = call(&mut buffer);
    format!("{refusal} {}", row_text(&buffer))
}

/// The answer to a call.
pub fn answer(call: Call) -> String {
    match call {
        Call::CheckTask(task) => checked(task.check()),
        Call::CheckTable(table) => checked(table.check()),
        Call::CheckInterface(interface) => checked(interface.check()),
        Call::CheckComponent(component) => checked(component.common_period().map(|_| ())),
        Call::Dedicated => "ok 1 1 1".to_string(),
        Call::CommonDivisor(a, b) => format!("ok {}", common_divisor(a as u64, b as u64)),
        Call::CommonPeriod(component) => answered(component.common_period(), 0, |length| length.to_string()),
        Call::Demand(table, t) => answered(demand::answer(&table, t as u64), 0, |units| units.to_string()),
        Call::Supply(interface, t) => answered(supply::answer(&interface, t as u64), 0, |units| units.to_string()),
        Call::AddTask(component, task) => answered(add_task(&component, task), Component::refused(), whole),
        Call::RemoveTask(component, place) => answered(remove_task(&component, place), Component::refused(), whole),
        Call::Make(number, capacity, period, deadline, table) => {
            answered(make(number, capacity, period, deadline, table), Component::refused(), whole)
        }
        Call::Edit(row, place, edits) => edit(&row, place, &edits),
        Call::Legal(interface, offset, row) => {
            answered(trace::answer(&interface, offset as u64, &row), false, |yes| if yes { "yes" } else { "no" }.to_string())
        }
        Call::Walk(table, jobs, row, length) => walk(&table, &jobs, &row, length),
        Call::Judge(component) => answered_alone(judge::judge(&component), judgement_text),
        Call::Capacity(component) => answered_alone(judge::smallest(&component), smallest_text),
        Call::Sheet(row) => faulted(sheet::read(&row).map(|sheet| sheet.components.len()), 0, |count| count.to_string()),
        Call::Part(row, place) => part(&row, place),
        Call::Read(row, place) => faulted(sheet::at_place(&row, place).map(|read| read.component), Component::refused(), whole),
        Call::Write(component, buffer, at) => written(buffer, |bytes| sheet::write_component(&component, bytes, at)),
        Call::WriteEnd(count, buffer, at) => written(buffer, |bytes| sheet::write_end(count, bytes, at)),
        Call::ReadPair(row, place) => {
            let refused = Pair { child: 0, parent: 0 };
            faulted(sheet::pair_at(&row, place), refused, |pair| format!("{} {}", pair.child, pair.parent))
        }
        Call::WritePair(pair, buffer, at) => written(buffer, |bytes| sheet::write_pair(&pair, bytes, at)),
        Call::Workload(row, place) => workload(&row, place),
        Call::Tree(row, place) => in_tree(&row, place),
        Call::Host(row, place, buffer, at) => replied(buffer, |bytes| host::judge(&row, place, bytes, at)),
        Call::HostCheck(row, buffer, at) => replied(buffer, |bytes| host::check(&row, bytes, at)),
        Call::HostAll(row, buffer, at) => replied(buffer, |bytes| host::judge_all(&row, bytes, at)),
    }
}

#[cfg(test)]
mod tests {
    use super::{answer, parse, row_text};
    use crate::text;

    fn holds(call: &str, expected: &str) {
        assert_eq!(parse(call).map(answer).as_deref(), Ok(expected), "{call}");
    }

    #[test]
    fn one_call_of_each_kind() {
        holds("check_task 8 2 7 0", "ok");
        holds("check_task 8 2 9 0", "refused 9");
        holds("check_table 0", "ok");
        holds("check_interface 6 2 4", "ok");
        holds("check_component 1 asked 6 4 24 1 8 2 7 5", "ok");
        holds("dedicated", "ok 1 1 1");
        holds("common_divisor 12 18", "ok 6");
        holds("common_period 1 stated 1 1 1 28 2 4 2 4 0 7 3 7 0", "ok 28");
        holds("common_period 1 asked 3 3 above 1 1048576 1 1 0", "refused 10 0");
        holds("demand 2 4 2 4 0 7 3 7 0 14", "ok 12");
        holds("supply 6 2 4 8", "ok 2");
        holds("supply 6 2 4 1048577", "refused 9 0");
        holds("add_task 7 asked 6 4 6 0 8 2 7 0", "ok 7 asked 6 4 24 1 8 2 7 0 zero");
        holds("add_task 7 asked 6 4 6 0 8 2 7 5", "ok 7 asked 6 4 24 1 8 2 7 5 zero");
        holds("add_task 7 asked 6 4 6 0 8 2 7 6", "refused 9 0 stated 1 1 1 1 0 zero");
        holds("remove_task 7 stated 2 6 4 24 1 8 2 7 0 0", "ok 7 stated 2 6 4 6 0 zero");
        holds("remove_task 7 stated 2 6 4 24 1 8 2 7 0 1", "refused 15 0 stated 1 1 1 1 0 zero");
        holds("legal 6 2 4 2 0000000000000101", "ok yes");
        holds("legal 6 2 4 6 -", "refused 9 no");
        holds("walk 1 8 2 7 0 1 0 1 0 1 0 1 2 0000000000000101 1", "ok miss 7 0 1 0 1 1");
        holds("walk 1 8 2 7 0 1 0 1 0 1 0 1 2 0000000000000101 2", "refused 11 none 0 0 2 77 77");
        holds("judge 1 stated 2 6 4 24 1 8 2 7 0", "ok short 7 2 -1 7");
        holds("judge 1 asked 6 4 24 1 8 2 7 0", "ok accepted 3 1 7");
        holds("judge 4 asked 6 4 12 1 4 2 2 0", "ok none 0 none");
        holds("judge 5 asked 6 4 6 0", "ok accepted 0 none");
        holds("judge 1 asked 3 3 above 1 1048576 1 1 0", "refused 10");
        holds("capacity 1 asked 6 4 12 1 4 2 2 0", "ok none");
        holds("capacity 1 stated 4 6 4 24 1 8 2 7 0", "ok 3");
        holds("capacity 1 asked 3 3 above 1 1048576 1 1 0", "refused 10");
        holds("sheet -", "refused 1 0 0");
        holds("sheet 060003000000", "ok 0");
        holds("part 060003000000 0", "refused 15 0 -");
        holds("read 060003000000 0", "refused 15 0 0 stated 1 1 1 1 0 zero");
        holds("write_end 256 8 1", "ok 7 a5060003000001a5");
        holds("write_end 257 8 9", "refused 9 0 a5a5a5a5a5a5a5a5");
        holds("host 060003000000 0 2 0", "15 a5a5");
        holds("host_check 0600030000 14 1", "0 a5010000000000000000000000a5");
        holds("host_check 060003000000 11 0", "11 a5a5a5a5a5a5a5a5a5a5a5");
    }

    #[test]
    fn the_calls_about_pairs() {
        let sheet = |lines: &str| row_text(&text::bytes(lines).unwrap());
        let five = "component 1 stated 6 2 4\ntask 8 2 7\ncomponent 2 stated 1 1 1\ntask 4 2 4\ncomponent 4 asked 6 4\ntask 4 2 2\n\
                    component 5 asked 6 4\ncomponent 6 stated 1 1 1\ntask 4 2 4\npair 1 2\npair 5 6\nend 5";
        let row = sheet(five);
        holds(&format!("read_pair {row} 1"), "ok 5 6");
        holds(&format!("read_pair {row} 2"), "refused 15 0 0 0");
        holds(&format!("read_pair {}00 0", row), "refused 8 162 0 0");
        holds("write_pair 1 2 10 1", "ok 9 a50800060001000200a5");
        holds("write_pair 2 2 1 1", "refused 16 0 a5");
        holds("write_pair 1 2 7 0", "refused 11 0 a5a5a5a5a5a5a5");
        holds(&format!("workload {row} 1"), "ok waiting");
        holds(&format!("workload {row} 4"), "ok 6 stated 1 1 1 4 1 4 2 4 0 zero");
        holds(&format!("workload {row} 5"), "refused 15 0 0 stated 1 1 1 1 0 zero");
        let accepted = sheet(&five.replace("8 2 7", "8 2 8"));
        holds(&format!("workload {accepted} 1"), "ok 2 stated 1 1 1 12 2 4 2 4 0 6 2 4 0 zero");
        holds(&format!("tree {accepted} 1"), "ok 2 accepted 1 0 4");
        holds(&format!("tree {row} 0"), "ok 1 short 7 2 -1 7");
        holds(&format!("tree {row} 1"), "ok 2 waiting");
        holds(&format!("tree {row} 2"), "ok 4 none 0 none");
        holds(&format!("tree {row} 3"), "ok 5 accepted 0 none");
        holds(&format!("tree {row} 5"), "refused 15 0");
        holds("tree - 0", "refused 1 0");
        holds(&format!("tree {} 0", sheet("component 9 asked 3 3\ntask 1048576 1 1\nend 1")), "refused 10 0");
        holds("host_all 060003000000 13 1", "0 a5000000000000000000000000");
        holds("host_all 060003000100 13 1", "8 a5a5a5a5a5a5a5a5a5a5a5a5a5");
        holds("host_all 060003000000 12 1", "11 a5a5a5a5a5a5a5a5a5a5a5a5");
    }

    #[test]
    fn the_calls_about_lateness() {
        holds("check_task 8 2 8 6", "ok");
        holds("check_task 8 2 8 7", "refused 9");
        holds("check_table 1 8 2 8 4294967295", "refused 9");
        holds("demand 1 8 2 8 1 7", "ok 2");
        holds("demand 1 8 2 8 1 6", "ok 0");
        holds("walk 1 8 2 8 1 1 0 1 -1 1 0 1 2 0000000000000101 1", "ok miss 7 0 1 0 1 1");
        holds("walk 1 8 2 8 1 1 0 1 0 1 1 1 2 0000000000000101 1", "ok none 2 0 1 0");
        holds("walk 1 8 2 8 1 1 0 1 -2 1 0 1 2 0000000000000101 1", "refused 12 none 0 0 1 77");
        holds("walk 1 8 2 8 1 1 0 1 -1 1 0 1 2 - 1", "ok none 0 0 1 2");
        holds("walk 1 8 2 8 1 1 0 1 -2147483648 1 4294967295 1 2 - 1", "refused 12 none 0 0 1 77");
        holds("judge 1 stated 2 6 4 24 1 8 2 8 1", "ok short 7 2 -1 7");
        holds("judge 1 stated 2 6 4 24 1 8 2 8 2", "ok short 6 2 -2 6");
        holds("capacity 1 asked 6 4 24 1 8 2 8 3", "ok 4");
        let late = row_text(&text::bytes("component 7 asked 6 4\ntask 8 2 8 3\nend 1").unwrap());
        holds(&format!("read {late} 0"), "ok 7 asked 6 4 24 1 8 2 8 3 zero");
        holds("write 7 asked 6 4 24 1 8 2 8 3 34 0", &format!("ok 34 {}", &late[..68]));
    }

    #[test]
    fn the_calls_about_the_stored_common_period() {
        let refused = |number: u16| format!("refused {number} 0 stated 1 1 1 1 0 zero");
        holds("make 7 asked 6 4 1 8 2 8 1", "ok 7 asked 6 4 24 1 8 2 8 1 zero");
        holds("make 7 stated 2 6 4 0", "ok 7 stated 2 6 4 6 0 zero");
        holds("make 7 asked 3 3 1 1048576 1 1 0", "ok 7 asked 3 3 above 1 1048576 1 1 0 zero");
        holds("make 7 stated 5 6 4 0", &refused(9));
        holds("add_task 7 stated 2 6 4 6 0 8 2 8 1", "ok 7 stated 2 6 4 24 1 8 2 8 1 zero");
        holds("add_task 7 stated 2 6 4 5 0 8 2 8 1", &refused(17));
        holds("add_task 7 stated 2 6 4 5 0 8 2 8 7", &refused(9));
        holds("add_task 7 stated 2 3 3 3 0 1048576 1 1 0", "ok 7 stated 2 3 3 above 1 1048576 1 1 0 zero");
        holds("remove_task 7 stated 2 3 3 above 1 1048576 1 1 0 0", "ok 7 stated 2 3 3 3 0 zero");
        holds("remove_task 7 stated 2 3 3 3145728 1 1048576 1 1 0 9", &refused(17));
        holds("check_component 7 stated 2 6 4 above 1 8 2 8 1", "refused 17");
        holds("common_period 7 stated 2 6 4 48 1 8 2 8 1", "refused 17 0");
        holds("judge 7 stated 2 6 4 0 1 8 2 8 1", "refused 17");
        holds("judge 7 stated 2 3 3 1048576 1 1048576 1 1 0", "refused 17");
        holds("capacity 7 stated 2 6 5 4294967295 1 8 2 8 1", "refused 17");
        holds("capacity 7 stated 2 6 7 4294967295 1 8 2 8 1", "refused 9");
        holds("write 7 stated 2 6 4 23 1 8 2 8 1 2 0", "refused 17 0 a5a5");
        holds("write 7 stated 2 6 4 24 1 8 2 8 1 2 0", "refused 11 0 a5a5");
    }

    #[test]
    fn a_component_is_read_edited_and_judged() {
        let sheet = |lines: &str| row_text(&text::bytes(lines).unwrap());
        let row = sheet("component 7 stated 6 2 4\ntask 8 2 7\nend 1");
        let late = &sheet("component 7 stated 6 2 4\ntask 8 2 8 1\nend 1")[..76];
        holds(&format!("edit {row} 0 2 add 8 2 8 1 remove 0"), &format!("ok 7 stated 2 6 4 24 1 8 2 8 1 zero short 7 2 -1 7 3 {late}"));
        holds(&format!("edit {row} 0 1 remove 0"), &format!("ok 7 stated 2 6 4 6 0 zero accepted 2 none 0 {}", &row[..36]));
        let long = &sheet("component 7 stated 6 2 4\ntask 8 2 7\ntask 1048575 1 1\nend 1")[..100];
        let answer = format!("ok 7 stated 2 6 4 above 2 8 2 7 0 1048575 1 1 0 zero refused 10 refused 10 {long}");
        holds(&format!("edit {row} 0 1 add 1048575 1 1 0"), &answer);
        holds(&format!("edit {row} 0 2 add 1048575 1 1 0 remove 1"), &format!("ok 7 stated 2 6 4 24 1 8 2 7 0 zero short 7 2 -1 7 3 {}", &row[..68]));
        holds(&format!("edit {row} 0 0"), &format!("ok 7 stated 2 6 4 24 1 8 2 7 0 zero short 7 2 -1 7 3 {}", &row[..68]));
        holds(&format!("edit {row} 0 2 remove 1 add 8 2 9 0"), "refused 15 0 stated 1 1 1 1 0 zero");
        holds(&format!("edit {row} 0 2 add 8 2 9 0 remove 1"), "refused 9 0 stated 1 1 1 1 0 zero");
        holds(&format!("edit {row} 1 1 remove 1"), "refused 15 0 0 stated 1 1 1 1 0 zero");
        holds(&format!("edit {} 0 0", &row[..70]), "refused 1 34 0 stated 1 1 1 1 0 zero");
    }

    #[test]
    fn what_is_no_call_is_named() {
        for stored in ["-1", "4294967296", "Above", "", "mark"] {
            assert!(parse(&format!("judge 1 stated 2 6 4 {stored} 0")).is_err(), "{stored}");
        }
        assert!(parse("edit - 0 201").is_err());
        assert!(parse("edit - 0 1 move 3").is_err());
        assert!(parse("edit - 0 2 remove 3").is_err());
        for release in ["-0", "+1", "2147483648", "-2147483649", "", "-"] {
            assert!(parse(&format!("walk 1 8 2 8 1 1 0 1 {release} 1 0 1 2 - 1")).is_err(), "{release}");
        }
        assert!(parse("supply +6 2 4 8").is_err());
        assert!(parse("walk 1 8 2 8 1 1 0 1 0 1 -1 1 2 - 1").is_err());
        assert!(parse("check_task 8 2 7").is_err());
        assert!(parse("supply 6 2 4").is_err());
        assert!(parse("supply 6 2 4 8 9").is_err());
        assert!(parse("legal 6 2 4 0 0").is_err());
        assert!(parse("suply 6 2 4 8").is_err());
        for gone in ["verdict", "margin"] {
            assert!(parse(&format!("{gone} 1 stated 2 6 4 24 1 8 2 7 0")).is_err(), "{gone}");
        }
    }
}
