//! The calls of a host in C and their replies (RULES 14).

use crate::judge::{Judgement, Verdict};
use crate::numbers::Refusal;
use crate::sheet::{self, put, times, Sheet};
use crate::tree::{Judged, Tree};

/// The length and the kind of the reply for one component.
pub const REPLY: usize = 24;
const REPLY_KIND: u16 = 16;
/// The length of the reply for a sheet, and of each component's entry behind it.
pub const HEAD: usize = 12;
pub const ENTRY: usize = 36;

/// The reply for a component of a number; 10 where its common period is too long.
fn reply(number: u16, judged: Judged) -> Result<Vec<u8>, Refusal> {
    let (code, capacity, short, margin) = match judged {
        Judged::Long => return Err(10),
        Judged::Waiting => (3u16, 0, 0, None),
        Judged::Answered(Judgement { verdict, capacity, margin }) => match verdict {
            Verdict::Accepted => (0, capacity, 0, margin),
            Verdict::Short(instant) => (1, capacity, instant as u32, margin),
            Verdict::None => (2, capacity, 0, margin),
        },
    };
    let (margin, instant) = margin.unwrap_or((0, 0));
    let mut bytes = vec![];
    bytes.extend((REPLY as u16).to_le_bytes());
    bytes.extend(REPLY_KIND.to_le_bytes());
    bytes.extend(number.to_le_bytes());
    bytes.extend(code.to_le_bytes());
    times(&mut bytes, &[capacity, short, margin as i32 as u32, instant as u32]);
    Ok(bytes)
}

/// What a call returns.
fn returned(answer: Result<u64, Refusal>) -> Refusal {
    answer.err().unwrap_or(0)
}

/// Judging: refused by the sheet, or with 15, 10, 11; 0 if the reply is written.
pub fn judge(bytes: &[u8], place: u64, buffer: &mut [u8], at: u64) -> Refusal {
    let sheet = match sheet::read(bytes) {
        Ok(sheet) => sheet,
        Err((refusal, _)) => return refusal,
    };
    if place >= sheet.components.len() as u64 {
        return 15;
    }
    let place = place as usize;
    let judged = Tree::of(&sheet).judged(place);
    returned(reply(sheet.components[place].component.number, judged).and_then(|bytes| put(&bytes, buffer, at)))
}

/// Checking: refusal, place and count of the sheet as the reply; 11 without room.
pub fn check(bytes: &[u8], buffer: &mut [u8], at: u64) -> Refusal {
    let (refusal, place, count) = match sheet::read(bytes) {
        Ok(sheet) => (0, 0, sheet.components.len()),
        Err((refusal, place)) => (refusal, place, 0),
    };
    let mut bytes = vec![];
    times(&mut bytes, &[refusal as u32, place as u32, count as u32]);
    returned(put(&bytes, buffer, at))
}

/// Judging all: refused by the sheet, or with 11.
pub fn judge_all(bytes: &[u8], buffer: &mut [u8], at: u64) -> Refusal {
    match sheet::read(bytes) {
        Ok(sheet) => returned(put(&replies(&sheet), buffer, at)),
        Err((refusal, _)) => refusal,
    }
}

/// The head, then an entry for each component.
fn replies(sheet: &Sheet) -> Vec<u8> {
    let tree = Tree::of(sheet);
    let mut bytes = vec![];
    times(&mut bytes, &[0, 0, sheet.components.len() as u32]);
    for (place, read) in sheet.components.iter().enumerate() {
        let number = read.component.number;
        let (refusal, reply) = match reply(number, tree.judged(place)) {
            Ok(reply) => (0, reply),
            Err(refusal) => (refusal, vec![0; REPLY]),
        };
        times(&mut bytes, &[refusal as u32, number as u32, read.start as u32]);
        bytes.extend(reply);
    }
    bytes
}

#[cfg(test)]
mod tests {
    use super::*;
    use crate::text;

    fn sheet(lines: &str) -> Vec<u8> {
        text::bytes(lines).unwrap()
    }

    #[test]
    fn the_reply_fills_only_its_bytes() {
        let sheet = sheet("component 3 stated 6 2 4\ntask 8 2 8\nend 1");
        let mut buffer = [0xa5; 30];
        assert_eq!(judge(&sheet, 0, &mut buffer, 3), 0);
        assert_eq!(buffer[..3], [0xa5; 3]);
        assert_eq!(buffer[3..27], [24, 0, 16, 0, 3, 0, 0, 0, 2, 0, 0, 0, 0, 0, 0, 0, 0, 0, 0, 0, 8, 0, 0, 0]);
        assert_eq!(buffer[27..], [0xa5; 3]);
        assert_eq!(judge(&sheet, 0, &mut buffer[..26], 3), 11);
        assert_eq!(judge(&sheet, 1, &mut [], 0), 15);
    }

    const WAITING: &str = "component 1 stated 6 2 4\ntask 8 2 7\ncomponent 2 stated 3 1 1\ntask 1048576 1 1\npair 1 2\nend 2";

    #[test]
    fn a_waiting_component_has_code_3_and_zeros_and_is_never_10() {
        let mut buffer = [0xa5; 24];
        assert_eq!(judge(&sheet(WAITING), 1, &mut buffer, 0), 0);
        assert_eq!(buffer[..8], [24, 0, 16, 0, 2, 0, 3, 0]);
        assert_eq!(buffer[8..], [0; 16]);
        assert_eq!(judge(&sheet(WAITING), 1, &mut buffer, 1), 11);
        assert_eq!(judge(&sheet(&WAITING.replace("pair 1 2\n", "")), 1, &mut [], 1), 10);
    }

    #[test]
    fn all_are_judged_in_one_pass() {
        let mut buffer = [0xa5; 86];
        assert_eq!(judge_all(&sheet(WAITING), &mut buffer, 1), 0);
        let first = [0, 0, 0, 0, 1, 0, 0, 0, 0, 0, 0, 0, 24, 0, 16, 0, 1, 0, 1, 0, 2, 0, 0, 0, 7, 0, 0, 0, 255, 255, 255, 255, 7, 0, 0, 0];
        let second = [0, 0, 0, 0, 2, 0, 0, 0, 34, 0, 0, 0, 24, 0, 16, 0, 2, 0, 3, 0];
        assert_eq!(buffer[..13], [0xa5, 0, 0, 0, 0, 0, 0, 0, 0, 2, 0, 0, 0]);
        assert_eq!(buffer[13..49], first);
        assert_eq!(buffer[49..69], second);
        assert_eq!(buffer[69..], [&[0; 16][..], &[0xa5]].concat());
        assert_eq!(judge_all(&sheet(WAITING), &mut buffer, 3), 11);
        assert_eq!(judge_all(&sheet("end 1"), &mut buffer, 90), 8);
        assert_eq!(judge_all(&sheet("end 0"), &mut buffer, 75), 11);
        assert_eq!(judge_all(&sheet("end 0"), &mut buffer, 74), 0);
    }

    #[test]
    fn an_entry_of_a_common_period_too_long_is_told_apart() {
        let mut buffer = [0xa5; 48];
        assert_eq!(judge_all(&sheet("component 9 asked 3 3\ntask 1048576 1 1\nend 1"), &mut buffer, 0), 0);
        assert_eq!(buffer[..24], [0, 0, 0, 0, 0, 0, 0, 0, 1, 0, 0, 0, 10, 0, 0, 0, 9, 0, 0, 0, 0, 0, 0, 0]);
        assert_eq!(buffer[24..], [0; 24]);
    }
}
