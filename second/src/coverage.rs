//! What a set of calls reaches: each refusal of each operation, each kind of answer, ties, both ends of each range, and the rules about
//! judging, about pairs and trees, about lateness and about stored common periods.

use crate::calls::{self, Call};
use crate::numbers::{Capacity, Component, Interface, Table, Task, LIMIT, TASKS};
use crate::tree::Tree;
use crate::{coverage_judge, coverage_late, coverage_pairs, coverage_stored, host, run, sheet};
use std::collections::BTreeMap;

#[derive(Default)]
pub struct Seen {
    counts: BTreeMap<String, u64>,
}

/// For each kind of call the refusals that it can meet (RULES 13).
const REFUSALS: [(&str, &[u16]); 27] = [
    ("check_task", &[9]),
    ("check_table", &[6, 9]),
    ("check_interface", &[9]),
    ("check_component", &[6, 9, 10, 17]),
    ("common_period", &[6, 9, 10, 17]),
    ("demand", &[6, 9]),
    ("supply", &[9]),
    ("add_task", &[6, 9, 17]),
    ("remove_task", &[6, 9, 15, 17]),
    ("make", &[6, 9]),
    ("edit", &[1, 2, 3, 4, 5, 6, 7, 8, 9, 14, 15, 16]),
    ("legal", &[9, 13]),
    ("walk", &[6, 9, 11, 12, 13]),
    ("judge", &[6, 9, 10, 17]),
    ("capacity", &[6, 9, 10, 17]),
    ("sheet", &[1, 2, 3, 4, 5, 6, 7, 8, 9, 14, 16]),
    ("part", &[1, 2, 3, 4, 5, 6, 7, 8, 9, 14, 15, 16]),
    ("read", &[1, 2, 3, 4, 5, 6, 7, 8, 9, 14, 15, 16]),
    ("write", &[6, 9, 11, 17]),
    ("write_end", &[9, 11]),
    ("read_pair", &[1, 2, 3, 4, 5, 6, 7, 8, 9, 14, 15, 16]),
    ("write_pair", &[11, 16]),
    ("workload", &[1, 2, 3, 4, 5, 6, 7, 8, 9, 14, 15, 16]),
    ("tree", &[1, 2, 3, 4, 5, 6, 7, 8, 9, 10, 14, 15, 16]),
    ("host", &[1, 2, 3, 4, 5, 6, 7, 8, 9, 10, 11, 14, 15, 16]),
    ("host_check", &[11]),
    ("host_all", &[1, 2, 3, 4, 5, 6, 7, 8, 9, 11, 14, 16]),
];

/// The answers that are no refusals, by what stands in them; ties; and the ends of ranges, the last one taken and the first
/// one refused.
const OTHERS: [&str; 99] = [
    "check_task ok",
    "check_table ok",
    "check_interface ok",
    "check_component ok",
    "common_divisor ok",
    "common_period ok",
    "demand ok",
    "supply ok",
    "add_task ok",
    "remove_task ok",
    "make ok",
    "edit ok",
    "legal ok yes",
    "legal ok no",
    "walk ok none",
    "walk ok miss",
    "judge ok accepted",
    "judge ok short",
    "judge ok none",
    "judge ok, margin none",
    "judge ok, margin negative",
    "judge ok, margin zero",
    "judge ok, margin positive",
    "capacity ok found",
    "capacity ok none",
    "sheet ok",
    "part ok",
    "read ok",
    "write ok",
    "write_end ok",
    "host code 0",
    "host code 1",
    "host code 2",
    "host code 3",
    "host no margin",
    "host_check taken",
    "host_check refused sheet",
    "read_pair ok",
    "write_pair ok",
    "workload ok component",
    "workload ok waiting",
    "tree ok accepted",
    "tree ok short",
    "tree ok none",
    "tree ok waiting",
    "tree ok no margin",
    "host_all no components",
    "host_all code 0",
    "host_all code 1",
    "host_all code 2",
    "host_all code 3",
    "host_all refusal 10 inside",
    "host_all no margin",
    "tie: a unit between two jobs of one deadline",
    "tie: two tasks late at the miss",
    "walk: a deadline at the trace's end",
    "walk: a deadline after the trace's end",
    "task: T is 1",
    "task: T is 1048576",
    "task: T is 1048577",
    "task: C is 0",
    "task: C is 1",
    "task: C is D",
    "task: C is D + 1",
    "task: D is T",
    "task: D is T + 1",
    "task: J is 0",
    "task: J is 1",
    "task: J is D - C",
    "task: J is D - C + 1",
    "task: J is 4294967295",
    "interface: Π is 1",
    "interface: Π is 1048576",
    "interface: Π is 1048577",
    "interface: Θ is 0",
    "interface: Θ is Δ",
    "interface: Θ is Δ + 1",
    "interface: Δ is 0",
    "interface: Δ is Π",
    "interface: Δ is Π + 1",
    "table: 0 tasks",
    "table: 64 tasks",
    "table: 65 tasks",
    "number: 0",
    "number: 65535",
    "t: 0",
    "t: 1048576",
    "t: 1048577",
    "L: 1048576",
    "offset: 0",
    "offset: Π - 1",
    "offset: Π",
    "trace: 0, 65536 and 65537 bytes",
    "jobs: 0, 1024 and 1025",
    "sheet: 65536 and 65537 bytes",
    "sheet: 0, 256 and 257 components",
    "write: just enough room",
    "write: one byte too few",
    "write: a place past the buffer",
];

/// Those of OTHERS that are reached when each of several is.
const SEVERAL: [(&str, &[&str]); 4] = [
    ("trace: 0, 65536 and 65537 bytes", &["trace 0", "trace 65536", "trace 65537"]),
    ("jobs: 0, 1024 and 1025", &["jobs 0", "jobs 1024", "jobs 1025"]),
    ("sheet: 65536 and 65537 bytes", &["sheet 65536", "sheet 65537"]),
    ("sheet: 0, 256 and 257 components", &["components 0", "components 256", "components 257"]),
];

impl Seen {
    fn add(&mut self, what: &str) {
        *self.counts.entry(what.to_string()).or_default() += 1;
    }

    fn add_if(&mut self, reached: bool, what: &str) {
        if reached {
            self.add(what);
        }
    }

    /// Counts one call with its answer.
    pub fn count(&mut self, call: Call) {
        let kind = kind(&call);
        self.ends(&call);
        self.ties(&call);
        self.tree(&call);
        coverage_judge::of_call(&call).iter().for_each(|what| self.add(what));
        coverage_late::of_call(&call).iter().for_each(|what| self.add(what));
        coverage_stored::of_call(&call).iter().for_each(|what| self.add(what));
        let at = if let Call::Host(.., at) | Call::HostCheck(.., at) | Call::HostAll(.., at) = &call { *at as usize } else { 0 };
        let answer = calls::answer(call);
        let words: Vec<&str> = answer.split(' ').collect();
        match (kind, words.as_slice()) {
            ("host", ["0", buffer]) => self.reply("host", &buffer[2 * at..]),
            ("host_all", ["0", buffer]) => self.entries(&buffer[2 * at..]),
            ("host_check", ["0", buffer]) => {
                let taken = buffer[2 * at..2 * (at + 4)] == *"00000000";
                self.add(if taken { "host_check taken" } else { "host_check refused sheet" });
            }
            ("host" | "host_check" | "host_all", [refusal, _]) => self.add(&format!("{kind} refused {refusal}")),
            (_, ["refused", refusal, ..]) => self.add(&format!("{kind} refused {refusal}")),
            ("workload", ["ok", word, ..]) => self.add(if *word == "waiting" { "workload ok waiting" } else { "workload ok component" }),
            ("tree", ["ok", _, word, rest @ ..]) => {
                self.add(&format!("tree ok {word}"));
                self.add_if(*word == "accepted" && rest.last() == Some(&"none"), "tree ok no margin");
            }
            ("judge", ["ok", word, .., _, last]) => {
                self.add(&format!("judge ok {word}"));
                self.add(match words[words.len() - 2] {
                    _ if *last == "none" => "judge ok, margin none",
                    "0" => "judge ok, margin zero",
                    least if least.starts_with('-') => "judge ok, margin negative",
                    _ => "judge ok, margin positive",
                });
            }
            ("legal" | "walk", ["ok", word, ..]) => self.add(&format!("{kind} ok {word}")),
            ("capacity", ["ok", "none"]) => self.add("capacity ok none"),
            ("capacity", _) => self.add("capacity ok found"),
            _ => self.add(&format!("{kind} ok")),
        }
    }

    /// The code of a reply in hex digits, and whether it has a margin.
    fn reply(&mut self, kind: &str, reply: &str) {
        self.add(&format!("{kind} code {}", &reply[13..14]));
        self.add_if(reply[40..48] == *"00000000", &format!("{kind} no margin"));
    }

    /// The entries behind the head of the reply to `host_all`.
    fn entries(&mut self, replies: &str) {
        let count = usize::from_str_radix(&replies[16..18], 16).expect("hex digits") + 256 * (&replies[18..20] == "01") as usize;
        self.add_if(count == 0, "host_all no components");
        for place in 0..count {
            let entry = &replies[2 * (host::HEAD + host::ENTRY * place)..][..2 * host::ENTRY];
            match &entry[..2] {
                "00" => self.reply("host_all", &entry[24..]),
                refusal => self.add_if(refusal == "0a", "host_all refusal 10 inside"),
            }
        }
    }

    /// What a call reaches of the trees of its sheet: for one place, or for all.
    fn tree(&mut self, call: &Call) {
        let (row, asked) = match call {
            Call::Workload(row, place) | Call::Tree(row, place) | Call::Host(row, place, ..) => (row, Some(*place)),
            Call::HostAll(row, ..) => (row, None),
            _ => return,
        };
        if let Ok(sheet) = sheet::read(row) {
            let tree = Tree::of(&sheet);
            for place in (0..sheet.components.len()).filter(|&place| asked.map_or(true, |asked| asked == place as u64)) {
                coverage_pairs::of_place(&tree, place).into_iter().for_each(|what| self.add(what));
            }
        }
    }

    fn task(&mut self, task: &Task) {
        self.add_if(task.period == 1, "task: T is 1");
        self.add_if(task.period as u64 == LIMIT, "task: T is 1048576");
        self.add_if(task.period as u64 == LIMIT + 1, "task: T is 1048577");
        self.add_if(task.work == 0, "task: C is 0");
        self.add_if(task.work == 1, "task: C is 1");
        self.add_if(task.work == task.deadline, "task: C is D");
        self.add_if(task.work as u64 == task.deadline as u64 + 1, "task: C is D + 1");
        self.add_if(task.deadline == task.period, "task: D is T");
        self.add_if(task.deadline as u64 == task.period as u64 + 1, "task: D is T + 1");
        if task.late(0).check().is_ok() {
            let (lateness, largest) = (task.lateness, task.deadline - task.work);
            self.add_if(lateness == 0, "task: J is 0");
            self.add_if(lateness == 1 && largest >= 1, "task: J is 1");
            self.add_if(lateness > 0 && lateness == largest, "task: J is D - C");
            self.add_if(lateness == largest + 1, "task: J is D - C + 1");
            self.add_if(lateness == u32::MAX, "task: J is 4294967295");
        }
    }

    fn table(&mut self, table: &Table) {
        self.add_if(table.count == 0, "table: 0 tasks");
        self.add_if(table.count == TASKS, "table: 64 tasks");
        self.add_if(table.count == TASKS + 1, "table: 65 tasks");
        table.tasks.iter().for_each(|task| self.task(task));
    }

    fn interface(&mut self, interface: &Interface) {
        let (period, capacity, deadline) = (interface.period as u64, interface.capacity as u64, interface.deadline as u64);
        self.add_if(period == 1, "interface: Π is 1");
        self.add_if(period == LIMIT, "interface: Π is 1048576");
        self.add_if(period == LIMIT + 1, "interface: Π is 1048577");
        self.add_if(capacity == 0, "interface: Θ is 0");
        self.add_if(capacity == deadline, "interface: Θ is Δ");
        self.add_if(capacity == deadline + 1, "interface: Θ is Δ + 1");
        self.add_if(deadline == 0, "interface: Δ is 0");
        self.add_if(deadline == period, "interface: Δ is Π");
        self.add_if(deadline == period + 1, "interface: Δ is Π + 1");
    }

    fn component(&mut self, component: &Component) {
        self.add_if(component.number == 0, "number: 0");
        self.add_if(component.number == u16::MAX, "number: 65535");
        if let Capacity::Stated(units) = component.capacity {
            self.interface(&component.interface(units));
        }
        self.table(&component.table);
        self.add_if(component.common_period() == Ok(LIMIT), "L: 1048576");
    }

    fn instant(&mut self, t: u64) {
        self.add_if(t == 0, "t: 0");
        self.add_if(t == LIMIT, "t: 1048576");
        self.add_if(t == LIMIT + 1, "t: 1048577");
    }

    fn sheet(&mut self, row: &[u8]) {
        coverage_pairs::of_sheet(row).iter().for_each(|what| self.add(what));
        coverage_late::of_sheet(row).iter().for_each(|what| self.add(what));
        self.add(&format!("sheet {}", row.len()));
        match sheet::read(row) {
            Ok(sheet) => self.add(&format!("components {}", sheet.components.len())),
            Err((7, _)) => self.add("components 257"),
            Err(_) => {}
        }
    }

    fn room(&mut self, need: usize, buffer: &[u8], at: u64) {
        let left = (buffer.len() as u64).checked_sub(at);
        self.add_if(left == Some(need as u64), "write: just enough room");
        self.add_if(left == Some(need as u64 - 1), "write: one byte too few");
        self.add_if(left.is_none(), "write: a place past the buffer");
    }

    /// The ends of ranges that a call stands at.
    fn ends(&mut self, call: &Call) {
        match call {
            Call::CheckTask(task) => self.task(task),
            Call::CheckTable(table) => self.table(table),
            Call::CheckInterface(interface) => self.interface(interface),
            Call::CheckComponent(component) | Call::CommonPeriod(component) => self.component(component),
            Call::Judge(component) | Call::Capacity(component) => self.component(component),
            Call::AddTask(component, _) | Call::RemoveTask(component, _) => self.component(component),
            Call::Make(number, capacity, period, deadline, table) => {
                self.component(&Component::new(*number, *capacity, *period, *deadline, table.clone()));
            }
            Call::Demand(table, t) => {
                self.table(table);
                self.instant(*t as u64);
            }
            Call::Supply(interface, t) => {
                self.interface(interface);
                self.instant(*t as u64);
            }
            Call::Legal(interface, offset, row) => {
                self.add(&format!("trace {}", row.len()));
                self.add_if(*offset == 0, "offset: 0");
                self.add_if(*offset as u64 + 1 == interface.period as u64, "offset: Π - 1");
                self.add_if(*offset == interface.period, "offset: Π");
            }
            Call::Walk(_, jobs, row, _) => {
                self.add(&format!("trace {}", row.len()));
                self.add(&format!("jobs {}", jobs.tasks.len()));
            }
            Call::Sheet(row) | Call::Part(row, _) | Call::Read(row, _) | Call::Edit(row, ..) => self.sheet(row),
            Call::ReadPair(row, _) | Call::Workload(row, _) | Call::Tree(row, _) => self.sheet(row),
            Call::WritePair(_, buffer, at) => self.room(8, buffer, *at),
            Call::Write(component, buffer, at) if component.check_stored().is_ok() => self.room(sheet::component_bytes(component).len(), buffer, *at),
            Call::WriteEnd(_, buffer, at) => self.room(6, buffer, *at),
            Call::Host(row, _, buffer, at) => {
                self.sheet(row);
                self.room(host::REPLY, buffer, *at);
            }
            Call::HostCheck(row, buffer, at) => {
                self.sheet(row);
                self.room(host::HEAD, buffer, *at);
            }
            Call::HostAll(row, buffer, at) => {
                self.sheet(row);
                if let Ok(sheet) = sheet::read(row) {
                    self.room(host::HEAD + host::ENTRY * sheet.components.len(), buffer, *at);
                }
            }
            _ => {}
        }
    }

    /// The ties that a call has to settle.
    fn ties(&mut self, call: &Call) {
        match call {
            Call::Walk(table, jobs, row, left) if run::answer(table, jobs, row, *left).is_ok() => {
                let met = run::met(table, jobs, row);
                self.add_if(met.tie, "tie: a unit between two jobs of one deadline");
                self.add_if(met.both_late, "tie: two tasks late at the miss");
                let end = row.len() as i64;
                let deadline = |job: usize| jobs.releases[job] as i64 + table.tasks[jobs.tasks[job] as usize].deadline as i64;
                self.add_if((0..jobs.tasks.len()).any(|job| deadline(job) == end), "walk: a deadline at the trace's end");
                self.add_if((0..jobs.tasks.len()).any(|job| deadline(job) > end), "walk: a deadline after the trace's end");
            }
            _ => {}
        }
    }

    fn reached(&self, what: &str) -> u64 {
        match SEVERAL.iter().find(|(several, _)| *several == what) {
            Some((_, each)) => each.iter().map(|one| self.reached(one)).min().unwrap_or(0),
            None => self.counts.get(what).copied().unwrap_or(0),
        }
    }

    /// A line for each thing to be reached with its count, and how many were not reached.
    pub fn report(&self) -> (String, usize) {
        let refusals = REFUSALS.iter().flat_map(|(kind, numbers)| numbers.iter().map(move |number| format!("{kind} refused {number}")));
        let mut text = String::new();
        let mut missing = 0;
        let judging = coverage_judge::REACHED.iter();
        let rules = judging.chain(&coverage_pairs::REACHED).chain(&coverage_late::REACHED).chain(&coverage_stored::REACHED);
        for what in OTHERS.iter().chain(rules).map(|what| what.to_string()).chain(refusals) {
            let count = self.reached(&what);
            missing += (count == 0) as usize;
            text += &format!("{count:>8} {what}\n");
        }
        (text, missing)
    }
}

fn kind(call: &Call) -> &'static str {
    match call {
        Call::CheckTask(..) => "check_task",
        Call::CheckTable(..) => "check_table",
        Call::CheckInterface(..) => "check_interface",
        Call::CheckComponent(..) => "check_component",
        Call::Dedicated => "dedicated",
        Call::CommonDivisor(..) => "common_divisor",
        Call::CommonPeriod(..) => "common_period",
        Call::Demand(..) => "demand",
        Call::Supply(..) => "supply",
        Call::AddTask(..) => "add_task",
        Call::RemoveTask(..) => "remove_task",
        Call::Make(..) => "make",
        Call::Edit(..) => "edit",
        Call::Legal(..) => "legal",
        Call::Walk(..) => "walk",
        Call::Judge(..) => "judge",
        Call::Capacity(..) => "capacity",
        Call::Sheet(..) => "sheet",
        Call::Part(..) => "part",
        Call::Read(..) => "read",
        Call::Write(..) => "write",
        Call::WriteEnd(..) => "write_end",
        Call::ReadPair(..) => "read_pair",
        Call::WritePair(..) => "write_pair",
        Call::Workload(..) => "workload",
        Call::Tree(..) => "tree",
        Call::Host(..) => "host",
        Call::HostCheck(..) => "host_check",
        Call::HostAll(..) => "host_all",
    }
}
