//! A sheet as plain text, one line a record, and back.
//!
//! `FORMS` has the lines that there are. White space of any kind parts the words, `#` begins a comment, and a line of
//! neither is passed over. The bytes are those of the records as written down: whether they make a sheet is the reader's
//! to say. So a fourth number on a task's line becomes the record that states its lateness, also where it is 0, which the
//! reader refuses. A number has one spelling (digits, no sign, no zero in front), so that text, bytes and text again is
//! the same but for comments and white space.

use crate::numbers::Refusal;
use crate::sheet;

/// A part of a line: a word that stands there, or a field of 2 or of 4 bytes, by its name.
enum Part {
    Word(&'static str),
    Number(&'static str),
    Time(&'static str),
}
use Part::{Number, Time, Word};

/// A kind of record and its line; the fields stand in the record's order.
struct Form {
    kind: u16,
    parts: &'static [Part],
}

const FORMS: &[Form] = &[
    Form { kind: sheet::STATED, parts: &[Word("component"), Number("NUMBER"), Word("stated"), Time("Π"), Time("Θ"), Time("Δ")] },
    Form { kind: sheet::ASKED, parts: &[Word("component"), Number("NUMBER"), Word("asked"), Time("Π"), Time("Δ")] },
    Form { kind: sheet::TASK, parts: &[Word("task"), Time("T"), Time("C"), Time("D")] },
    Form { kind: sheet::LATE, parts: &[Word("task"), Time("T"), Time("C"), Time("D"), Time("J")] },
    Form { kind: sheet::PAIR, parts: &[Word("pair"), Number("CHILD"), Number("PARENT")] },
    Form { kind: sheet::END, parts: &[Word("end"), Number("COUNT")] },
];

/// The most wrong lines that are named one by one.
const NAMED: usize = 20;
/// The most characters of a line that are shown.
const SHOWN: usize = 100;

impl Part {
    fn name(&self) -> &'static str {
        match self {
            Word(name) | Number(name) | Time(name) => name,
        }
    }

    /// The bytes of a field; none for a word.
    fn width(&self) -> usize {
        match self {
            Word(_) => 0,
            Number(_) => 2,
            Time(_) => 4,
        }
    }
}

impl Form {
    /// Whether the words are meant as this form: its own words stand in their places, as far as the line goes.
    fn meant(&self, words: &[&str]) -> bool {
        self.parts.iter().zip(words).all(|(part, word)| part.width() > 0 || part.name() == *word)
    }

    fn line(&self) -> String {
        let names: Vec<&str> = self.parts.iter().map(Part::name).collect();
        names.join(" ")
    }

    /// What stands after the form's last own word.
    fn needs(&self) -> String {
        let last = self.parts.iter().rposition(|part| part.width() == 0).expect("a form begins with a word");
        let names: Vec<&str> = self.parts[last + 1..].iter().map(Part::name).collect();
        format!("{} needs {}: `{}`", self.parts[last].name(), names.join(" "), self.line())
    }

    /// The record that the words write down, or what is wrong with its numbers.
    fn bytes(&self, words: &[&str]) -> Result<Vec<u8>, String> {
        let mut bytes = vec![];
        let mut wrong = vec![];
        sheet::begin(&mut bytes, self.kind);
        for (part, word) in self.parts.iter().zip(words).filter(|(part, _)| part.width() > 0) {
            match plain(word, part.width()) {
                Ok(value) => bytes.extend(&value.to_le_bytes()[..part.width()]),
                Err(what) => wrong.push(format!("{} is `{}`, {what}", part.name(), shown(word))),
            }
        }
        if wrong.is_empty() { Ok(bytes) } else { Err(wrong.join("; ")) }
    }

    /// The line of a record of this kind.
    fn text(&self, record: &[u8]) -> String {
        let mut at = 4;
        let words: Vec<String> = self.parts.iter().map(|part| {
            at += part.width();
            match part {
                Word(name) => name.to_string(),
                Number(_) => sheet::number(record, at - 2).to_string(),
                Time(_) => sheet::time(record, at - 4).to_string(),
            }
        }).collect();
        words.join(" ")
    }
}

/// The value of a plain decimal number that fits so many bytes, or what is wrong with it.
fn plain(word: &str, width: usize) -> Result<u64, String> {
    if !word.bytes().all(|byte| byte.is_ascii_digit()) {
        return Err("which is not a number of digits alone".into());
    }
    if word.len() > 1 && word.starts_with('0') {
        return Err("which has a zero in front".into());
    }
    let most = (1u64 << (8 * width)) - 1;
    word.parse().ok().filter(|value| *value <= most).ok_or_else(|| format!("which is above {most}, the most that its {width} bytes hold"))
}

/// A line as a message shows it: no control characters, and not its whole length where it is long.
fn shown(line: &str) -> String {
    let words: Vec<&str> = line.split_whitespace().collect();
    let whole: String = words.join(" ").chars().map(|c| if c.is_control() { '\u{fffd}' } else { c }).collect();
    if whole.chars().count() <= SHOWN { whole } else { whole.chars().take(SHOWN).chain(['…']).collect() }
}

/// The record that a line's words write down, or what is wrong with them.
fn record(words: &[&str]) -> Result<Vec<u8>, String> {
    let begun: Vec<&Form> = FORMS.iter().filter(|form| form.meant(&words[..1])).collect();
    let meant: Vec<&Form> = begun.iter().copied().filter(|form| form.meant(words)).collect();
    if let Some(form) = meant.iter().find(|form| form.parts.len() == words.len()) {
        return form.bytes(words);
    }
    match (begun.as_slice(), meant.as_slice()) {
        (_, [one]) => Err(one.needs()),
        ([], _) => Err(format!("no record begins with `{}`; a line is {}", shown(words[0]), lines_of(FORMS.iter()))),
        (_, []) => Err(format!("a {} is {}", words[0], lines_of(begun.into_iter()))),
        (_, several) => Err(format!("a {} is {}", words[0], lines_of(several.iter().copied()))),
    }
}

fn lines_of<'a>(forms: impl Iterator<Item = &'a Form>) -> String {
    let lines: Vec<String> = forms.map(|form| format!("`{}`", form.line())).collect();
    lines.join(" or ")
}

/// A line that has a record: its number in the text, from 1, the record as it stands there, and where its bytes begin.
#[derive(Clone, Debug, PartialEq, Eq)]
struct Line {
    number: usize,
    record: String,
    start: usize,
}

/// A text that was taken: the records' bytes, and the lines that they come from.
#[derive(Debug)]
pub struct Written {
    pub bytes: Vec<u8>,
    lines: Vec<Line>,
}

impl Written {
    /// The line whose record has the byte at a place, as `NUMBER: RECORD`; at the very end, the last line with a word
    /// that says so. No line has a place past that.
    pub fn line(&self, place: usize) -> Result<String, String> {
        let line = self.lines.iter().rev().find(|line| line.start <= place).ok_or("no line has a record")?;
        match place.cmp(&self.bytes.len()) {
            std::cmp::Ordering::Less => Ok(format!("{}: {}", line.number, line.record)),
            std::cmp::Ordering::Equal => Ok(format!("{}: after {}", line.number, line.record)),
            std::cmp::Ordering::Greater => Err(format!("no line has byte {place}: the sheet has {} bytes", self.bytes.len())),
        }
    }
}

/// Takes a text, or says what is wrong with it, a message for each wrong line.
pub fn written(text: &[u8]) -> Result<Written, Vec<String>> {
    if text.starts_with(&[0xff, 0xfe]) || text.starts_with(&[0xfe, 0xff]) {
        return Err(vec!["the text is UTF-16: save it as UTF-8".into()]);
    }
    if text.contains(&0) {
        return Err(vec!["bytes of value 0 stand in it, as in a sheet's bytes: it is not a text".into()]);
    }
    let text = String::from_utf8_lossy(text);
    let mut taken = Written { bytes: vec![], lines: vec![] };
    let mut wrong = vec![];
    for (place, line) in text.trim_start_matches('\u{feff}').lines().enumerate() {
        let said = line.split('#').next().unwrap_or("");
        let words: Vec<&str> = said.split_whitespace().collect();
        if words.is_empty() {
            continue;
        }
        match record(&words) {
            Ok(bytes) => {
                taken.lines.push(Line { number: place + 1, record: words.join(" "), start: taken.bytes.len() });
                taken.bytes.extend(bytes);
            }
            Err(what) => wrong.push(format!("{}: `{}`: {what}", place + 1, shown(line))),
        }
    }
    let more = wrong.len().saturating_sub(NAMED);
    wrong.truncate(NAMED);
    if more > 0 {
        wrong.push(format!("{more} more wrong lines"));
    }
    if wrong.is_empty() && taken.lines.is_empty() {
        wrong.push(format!("no line has a record; a line is {}", lines_of(FORMS.iter())));
    }
    if wrong.is_empty() { Ok(taken) } else { Err(wrong) }
}

/// The bytes of a text, or what is wrong with it.
pub fn bytes(text: &str) -> Result<Vec<u8>, Vec<String>> {
    written(text.as_bytes()).map(|taken| taken.bytes)
}

/// The text of a sheet's records, or the refusal of the first that is none, with its place.
pub fn text(sheet: &[u8]) -> Result<String, (Refusal, usize)> {
    if sheet.len() > sheet::BYTES {
        return Err((14, 0));
    }
    let mut lines = String::new();
    let mut at = 0;
    while at < sheet.len() || at == 0 {
        let (kind, record) = sheet::record(sheet, at).map_err(|refusal| (refusal, at))?;
        let form = FORMS.iter().find(|form| form.kind == kind).expect("a line for each kind");
        lines += &form.text(record);
        lines += "\n";
        at += record.len();
    }
    Ok(lines)
}

#[cfg(test)]
mod tests {
    use super::*;

    const SMALL: &str = "component 1 stated 6 2 4\ntask 8 2 8\ncomponent 2 asked 6 4\nend 2\n";

    fn wrong(text: &str) -> Vec<String> {
        written(text.as_bytes()).unwrap_err()
    }

    #[test]
    fn a_form_has_its_records_length() {
        for form in FORMS {
            let widths: usize = form.parts.iter().map(Part::width).sum();
            assert_eq!(sheet::length_of(form.kind), Some(4 + widths));
        }
    }

    #[test]
    fn text_and_bytes_undo_each_other() {
        let sheet = bytes(SMALL).unwrap();
        assert_eq!(sheet.len(), 18 + 16 + 14 + 6);
        assert_eq!(text(&sheet).unwrap(), SMALL);
        let most = "component 65535 stated 4294967295 0 4294967295\n";
        assert_eq!(text(&bytes(most).unwrap()).unwrap(), most);
        let nested = "component 1 stated 6 2 4\ncomponent 2 asked 6 4\npair 1 2\nend 2\n";
        assert_eq!(bytes(nested).unwrap()[32..40], [8, 0, 6, 0, 1, 0, 2, 0]);
        assert_eq!(text(&bytes(nested).unwrap()).unwrap(), nested);
    }

    #[test]
    fn a_fourth_number_states_the_lateness_whatever_it_is() {
        let late = "component 1 stated 6 2 4\ntask 8 2 8 1\ntask 8 2 8\ntask 8 2 8 0\ntask 8 2 8 4294967295\nend 1\n";
        let sheet = bytes(late).unwrap();
        assert_eq!(sheet[18..38], [20, 0, 5, 0, 8, 0, 0, 0, 2, 0, 0, 0, 8, 0, 0, 0, 1, 0, 0, 0]);
        assert_eq!(sheet[54..58], [20, 0, 5, 0]);
        assert_eq!(text(&sheet).unwrap(), late);
        assert_eq!(sheet::read(&sheet), Err((9, 54)));
        assert_eq!(written(late.as_bytes()).unwrap().line(54), Ok("4: task 8 2 8 0".into()));
    }

    #[test]
    fn white_space_and_comments_are_taken() {
        let loose = "\u{feff}# note\r\n\r\n  # more\r\n\tcomponent  1\tstated 6 2 4  # why\r\ntask\u{a0}8 2 8# task 9\r\n component 2 asked 6 4\n\u{c}\nend 2";
        assert_eq!(bytes(loose).unwrap(), bytes(SMALL).unwrap());
        assert_eq!(written(b"# caf\xe9\nend 0\n").unwrap().bytes, [6, 0, 3, 0, 0, 0]);
    }

    #[test]
    fn a_wrong_line_is_named_and_told_what_it_needs() {
        assert_eq!(wrong("# note\n\ntask 8 2\n"), ["3: `task 8 2`: a task is `task T C D` or `task T C D J`"]);
        assert_eq!(wrong("task 8 2 8 1 0"), ["1: `task 8 2 8 1 0`: a task is `task T C D` or `task T C D J`"]);
        assert_eq!(wrong("task 8 2 8 -1"), ["1: `task 8 2 8 -1`: J is `-1`, which is not a number of digits alone"]);
        assert_eq!(
            wrong("component 1 stated 6 2  # short"),
            ["1: `component 1 stated 6 2 # short`: stated needs Π Θ Δ: `component NUMBER stated Π Θ Δ`"]
        );
        let both = "`component NUMBER stated Π Θ Δ` or `component NUMBER asked Π Δ`";
        assert_eq!(wrong("component 1"), [format!("1: `component 1`: a component is {both}")]);
        assert_eq!(wrong("component 1 given 6 2 4"), [format!("1: `component 1 given 6 2 4`: a component is {both}")]);
        assert!(wrong("end 0\ntusk 8 2 8")[0].starts_with("2: `tusk 8 2 8`: no record begins with `tusk`; a line is `component"));
        assert_eq!(wrong("pair 1"), ["1: `pair 1`: pair needs CHILD PARENT: `pair CHILD PARENT`"]);
        assert_eq!(wrong("end 1 2"), ["1: `end 1 2`: end needs COUNT: `end COUNT`"]);
    }

    #[test]
    fn a_number_has_one_spelling_and_fits_its_field() {
        let digits = "which is not a number of digits alone";
        for word in ["+6", "-6", "6.0", "0x6", "1,000", "six", "６"] {
            assert_eq!(wrong(&format!("task {word} 2 6")), [format!("1: `task {word} 2 6`: T is `{word}`, {digits}")]);
        }
        assert_eq!(wrong("task 006 2 00"), ["1: `task 006 2 00`: T is `006`, which has a zero in front; D is `00`, which has a zero in front"]);
        assert!(wrong("end 65536")[0].ends_with("COUNT is `65536`, which is above 65535, the most that its 2 bytes hold"));
        assert!(wrong("task 4294967296 1 1")[0].ends_with("which is above 4294967295, the most that its 4 bytes hold"));
        assert!(wrong("task 99999999999999999999 1 1")[0].contains("which is above"));
        assert_eq!(bytes("task 0 4294967295 0").unwrap()[4..], [0, 0, 0, 0, 255, 255, 255, 255, 0, 0, 0, 0]);
    }

    #[test]
    fn all_wrong_lines_are_named_up_to_twenty() {
        let all = wrong(&"task\nend 0\n".repeat(23));
        assert_eq!(all.len(), 21);
        assert!(all[19].starts_with("39: `task`"));
        assert_eq!(all[20], "3 more wrong lines");
        assert_eq!(wrong(&"task\n".repeat(20)).len(), 20);
    }

    #[test]
    fn what_is_no_text_is_said() {
        for empty in ["", "\n\n", "# note\n", "\u{feff}"] {
            assert!(wrong(empty)[0].starts_with("no line has a record; a line is `component"));
        }
        assert!(written(&[6, 0, 3, 0, 0, 0]).unwrap_err()[0].contains("not a text"));
        assert!(written(&[0xff, 0xfe, b'e', 0]).unwrap_err()[0].contains("UTF-16"));
        assert_eq!(shown(&format!("task \u{1b}[2J {}", "9".repeat(200))).chars().count(), SHOWN + 1);
        assert!(!shown("task \u{1b}[2J").contains('\u{1b}'));
    }

    #[test]
    fn a_byte_place_leads_to_its_line() {
        let taken = written(format!("# note\n\n{SMALL}").as_bytes()).unwrap();
        assert_eq!(taken.line(0), Ok("3: component 1 stated 6 2 4".into()));
        assert_eq!(taken.line(17), Ok("3: component 1 stated 6 2 4".into()));
        assert_eq!(taken.line(18), Ok("4: task 8 2 8".into()));
        assert_eq!(taken.line(48), Ok("6: end 2".into()));
        assert_eq!(taken.line(53), Ok("6: end 2".into()));
        assert_eq!(taken.line(54), Ok("6: after end 2".into()));
        assert_eq!(taken.line(55), Err("no line has byte 55: the sheet has 54 bytes".into()));
    }

    #[test]
    fn bytes_without_records_are_refused() {
        assert_eq!(text(&[]), Err((1, 0)));
        assert_eq!(text(&[18, 0]), Err((1, 0)));
        let mut damaged = bytes(SMALL).unwrap();
        damaged[20] = 9;
        assert_eq!(text(&damaged), Err((2, 18)));
        assert_eq!(text(&vec![0; sheet::BYTES + 1]), Err((14, 0)));
    }
}
