//! The listing of a sheet (RULES 15).

use crate::judge::{Judgement, Verdict};
use crate::sheet;
use crate::tree::{Judged, Tree};

/// What the listing program prints for a sheet.
pub fn listing(bytes: &[u8]) -> String {
    let tree = match sheet::read(bytes) {
        Ok(sheet) => Tree::of(&sheet),
        Err((refusal, place)) => return format!("refused {refusal} {place}\n"),
    };
    let count = tree.components.len();
    let mut text: String = (0..count).map(|place| line(tree.components[place].number, tree.judged(place)) + "\n").collect();
    text += &format!("end {count}\n");
    text
}

fn line(own: u16, judged: Judged) -> String {
    let Judgement { verdict, capacity, margin } = match judged {
        Judged::Waiting => return format!("{own} waiting"),
        Judged::Long => return format!("{own} long"),
        Judged::Answered(judgement) => judgement,
    };
    let measured = margin.map_or("- -".to_string(), |(least, instant)| format!("{least} {instant}"));
    match verdict {
        Verdict::Accepted => format!("{own} accepted {capacity} {measured}"),
        Verdict::Short(instant) => format!("{own} short {capacity} {instant} {measured}"),
        Verdict::None => format!("{own} none"),
    }
}

#[cfg(test)]
mod tests {
    use super::*;
    use crate::text;

    #[test]
    fn the_example_of_the_rules() {
        let sheet = text::bytes(
            "component 1 stated 6 2 4\ntask 8 2 8\ncomponent 2 asked 6 4\ntask 8 2 7\ncomponent 3 stated 6 4 4\ntask 4 2 2\n\
             component 4 asked 6 4\ntask 4 2 2\ncomponent 5 asked 6 4\nend 5\n",
        );
        let expected = "1 accepted 2 0 8\n2 accepted 3 1 7\n3 short 4 2 -2 2\n4 none\n5 accepted 0 - -\nend 5\n";
        assert_eq!(listing(&sheet.unwrap()), expected);
        assert_eq!(listing(&[]), "refused 1 0\n");
        let long = text::bytes("component 9 asked 3 3\ntask 1048576 1 1\nend 1\n");
        assert_eq!(listing(&long.unwrap()), "9 long\nend 1\n");
    }

    #[test]
    fn the_nested_examples_of_the_rules() {
        let listed = |lines: &str| listing(&text::bytes(lines).unwrap());
        let two = "component 1 stated 6 2 4\ntask 8 2 8\ncomponent 2 stated 1 1 1\ntask 4 2 4\npair 1 2\nend 2";
        assert_eq!(listed(two), "1 accepted 2 0 8\n2 accepted 1 0 4\nend 2\n");
        assert_eq!(listed(&two.replace("8 2 8", "8 2 7")), "1 short 2 7 -1 7\n2 waiting\nend 2\n");
        let trees = "component 1 stated 6 2 4\ntask 8 2 7\ncomponent 2 stated 6 2 4\ntask 8 2 8\n\
                     component 3 asked 3 3\ntask 1048576 1 1048576\ncomponent 4 asked 6 4\ncomponent 5 stated 1 1 1\ntask 4 2 4\n\
                     component 6 stated 1 1 1\npair 1 3\npair 2 5\npair 3 6\npair 4 5\nend 6";
        let expected = "1 short 2 7 -1 7\n2 accepted 2 0 8\n3 waiting\n4 accepted 0 - -\n5 accepted 1 0 4\n6 waiting\nend 6\n";
        assert_eq!(listed(trees), expected);
        assert_eq!(listed(&two.replace("pair 1 2", "pair 2 1")), "refused 16 68\n");
    }
}
