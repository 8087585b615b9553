//! Sheets whose answers were written down by hand.

use super::expect;
use crate::report::Group;
use crate::sheet::answer;

pub const P6: &str = "size 3 2\nwrite a 2 ~c\nwrite b 1 a\nread c 2 1\nwrite c 2 c\nteam 1 2\nknown\nmake b\n";
/// Post 1 may look too, since nothing is said of its looks (request R-2).
const P6_ANSWER: &str = "reach 4\n0 look c 1\n1 set a 2 1\n2 set b 1 1\n3 stop\n1 set c 2 0\n2 set a 2 1\n\
    3 set b 1 1\n4 stop\n";

const P8_ANSWER: &str = "reach 5\n0 look a 1\n1 look c 1\n2 set a 2 1\n3 set b 1 1\n4 stop\n2 set c 2 0\n3 set a 2 1\n\
    4 set b 1 1\n5 stop\n1 set b 1 1\n2 stop\n";

/// Paper 01's own answer to P6, where looks that nobody stated were closed.
const P6_CLOSED_ANSWER: &str = "reach 4\n0 look c 2\n1 set a 2 1\n2 set b 1 1\n3 stop\n1 set c 2 0\n2 set a 2 1\n\
    3 set b 1 1\n4 stop\n";

/// Lines between the size and the team of a sheet with two settings and two posts, and what is printed.
const WITH_RIGHTS: &[(&str, &str)] = &[
    ("read a 1\n", "refused 22 2\n"),
    ("read a 1 \n", "refused 1 2\n"),
    ("read a 1  b\n", "refused 2 2\n"),
    ("read a 1 b \n", "refused 2 2\n"),
    ("read a 1 b\r\n", "refused 2 2\n"),
    ("read a 1 B\n", "refused 2 2\n"),
    ("read a 1 c\n", "refused 3 2\n"),
    ("read a 1 b&\n", "refused 4 2\n"),
    ("read a 1 \tb\n", "refused 2 2\n"),
    ("read a 1 \0\n", "refused 2 2\n"),
    ("read a 1 \u{e9}\n", "refused 2 2\n"),
    ("read a 1 b c\n", "refused 2 2\n"),
    ("read a 1 c d\n", "refused 3 2\n"),
    ("read a 1 (b(\nread a 1 1\n", "refused 4 2\n"),
    ("read \u{e9} 1 1\n", "refused 22 2\n"),
    ("read a 1\0 1\n", "refused 22 2\n"),
    ("read a 1\t1\n", "refused 22 2\n"),
    ("read a  1\n", "refused 22 2\n"),
    ("\n", "refused 22 2\n"),
    ("read a 1 1\n\nread b 1 1\n", "refused 22 3\n"),
    ("known\n", "refused 22 2\n"),
    ("ask a\n", "refused 22 2\n"),
    ("write b 2 a\nread b 2 a\nwrite a 2 1\nwrite a 1 b\n", "cannot\n"),
    ("write a 1 1\nwrite a 1 0\n", "refused 23 3\n"),
    ("write a 2 1\nread a 2 1\nwrite a 2 \n", "refused 23 4\n"),
    ("write a 2 1\nwrite a 2\n", "refused 22 3\n"),
    ("write a 3 (\n", "refused 22 2\n"),
    ("read c 1 1\n", "refused 22 2\n"),
    ("read a 3 1\n", "refused 22 2\n"),
    ("read a 0 1\n", "refused 22 2\n"),
    ("read 1 a 1\n", "refused 22 2\n"),
    ("read ~a 1 1\n", "refused 22 2\n"),
    ("Read a 1 1\n", "refused 22 2\n"),
    ("read\ta 1 1\n", "refused 22 2\n"),
    ("read a 1 1\nwrite a 1 1\n", "reach 1\n0 set a 1 1\n1 stop\n"),
    ("write a 1 1\nread a 1 1\nread b 1 1\n", "reach 1\n0 set a 1 1\n1 stop\n"),
    ("read a 1 1\nread a 1 (\n", "refused 23 3\n"),
    ("read a 1 1\nread a 1 \n", "refused 23 3\n"),
    ("read a 1 1\nread a 1\n", "refused 22 3\n"),
    ("read a 1 1\nread a 2 1\nread a 1 1\n", "refused 23 4\n"),
];

/// A part of the sheet's last three lines, what stands in its place, and what is printed.
const IN_PLACE_OF: &[(&str, &str, &str)] = &[
    ("team 1", "team", "refused 22 2\n"),
    ("team 1", "team ", "refused 22 2\n"),
    ("team 1", "team 1 ", "refused 22 2\n"),
    ("team 1", "team 1 1", "refused 23 2\n"),
    ("team 1", "team 1 1 9", "refused 22 2\n"),
    ("team 1", "team 2 1 2", "refused 23 2\n"),
    ("team 1", "team 12", "refused 22 2\n"),
    ("team 1", "team ~1", "refused 22 2\n"),
    ("team 1", "team 3", "refused 22 2\n"),
    ("team 1", "team 1  2", "refused 22 2\n"),
    ("team 1", "team\t1", "refused 22 2\n"),
    ("team 1", "team 1 2 3", "refused 22 2\n"),
    ("team 1", "team 1\r", "refused 22 2\n"),
    ("team 1\n", "", "refused 22 2\n"),
    ("known", "known ", "refused 22 3\n"),
    ("known", "known ~", "refused 22 3\n"),
    ("known", "known ~~a", "refused 22 3\n"),
    ("known", "known a a", "refused 23 3\n"),
    ("known", "known a ~a", "refused 23 3\n"),
    ("known", "known a a c", "refused 22 3\n"),
    ("known", "known c", "refused 22 3\n"),
    ("known", "known ab", "refused 22 3\n"),
    ("known", "known\nknown", "refused 22 4\n"),
    ("known", "known\t", "refused 22 3\n"),
    ("known", "knowna", "refused 22 3\n"),
    ("known", "known a", "reach 0\n0 stop\n"),
    ("known", "known ~b a", "reach 0\n0 stop\n"),
    ("known", "known ~a b ~a", "refused 23 3\n"),
    ("known", "known a  b", "refused 22 3\n"),
    ("known", "known a ", "refused 22 3\n"),
    ("known", "known a\nknown a", "refused 22 4\n"),
    ("known", "known a a ~", "refused 22 3\n"),
    ("known\n", "", "refused 22 3\n"),
    ("known", "known\nheld ~a", "refused 22 4\n"),
    ("known", "known\nheld c", "refused 22 4\n"),
    ("known", "known\nheld a b a", "refused 23 4\n"),
    ("known", "known\nheld\nheld", "refused 22 5\n"),
    ("known", "held\nknown", "refused 22 3\n"),
    ("known", "known a\nheld a", "reach 0\n0 stop\n"),
    ("known", "known a\nheld", "reach 0\n0 stop\n"),
    ("make a", "make", "refused 22 4\n"),
    ("make a", "make ", "refused 1 4\n"),
    ("make a", "make  a", "refused 2 4\n"),
    ("make a", "make ~", "refused 4 4\n"),
    ("make a", "make g", "refused 3 4\n"),
    ("make a", "make h", "refused 2 4\n"),
    ("make a", "make\ta", "refused 22 4\n"),
    ("make a", "make a\r", "refused 2 4\n"),
    ("make a", " make a", "refused 22 4\n"),
    ("make a", "ask a", "refused 22 4\n"),
    ("make a\n", "", "refused 22 4\n"),
    ("make a\n", "make a\nask\n", "refused 22 5\n"),
    ("make a\n", "make a\nask \n", "refused 1 5\n"),
    ("make a\n", "make 1\nask a|~a\n", "reach 0\n0 stop\n"),
    ("make a\n", "make 1\n", "reach 0\n0 stop\n"),
    ("make a\n", "make 0\n", "cannot\n"),
];

/// Whole sheets, and what is printed.
fn whole_sheets() -> Vec<(String, &'static str)> {
    let p9 = "size 1 1\nread a 1 1\nwrite a 1 1\nteam 1\nknown\nmake ~a\nask a\n";
    let p8 = [P6, "ask a\n"].concat();
    let p8_other = [P6, "ask c\n"].concat();
    let p7 = P6.replace("team 1 2", "team 1");
    let no_read = P6.replace("read c 2 1\n", "");
    // the five looks that P6 says nothing of, said to be closed
    let closed = "read a 1 0\nread a 2 0\nread b 1 0\nread b 2 0\nread c 1 0\n";
    let shut = |sheet: &str| sheet.replace("write a 2", &[closed, "write a 2"].concat());
    let shut_no_read = shut(&no_read.replace("write a 2", "read c 2 0\nwrite a 2"));
    vec![
        (P6.to_string(), P6_ANSWER),
        (shut(P6), P6_CLOSED_ANSWER),
        (shut(&p7), "cannot\n"),
        (shut(&p8), "cannot\n"),
        (shut(&p8_other), P6_CLOSED_ANSWER),
        (shut_no_read, "cannot\n"),
        (p7, "cannot\n"),
        (p8, P8_ANSWER),
        (p8_other, P6_ANSWER),
        (no_read, P6_ANSWER),
        (p9.to_string(), "reach 2\n0 look a 1\n1 stop\n1 set a 1 0\n2 stop\n"),
        ("size 2 1\nwrite a 1 b|~b\nteam 1\nknown\nmake a\n".to_string(), "reach 1\n0 set a 1 1\n1 stop\n"),
        ("size 2 1\nteam 1\nknown ~a\nmake 1\nask a&b\n".to_string(), "reach 0\n0 stop\n"),
        ("size 5 8\nteam 8 1\nknown e ~a\nmake e&~a\nask e\nask a\n".to_string(), "reach 0\n0 stop\n"),
        (String::new(), "refused 22 1\n"),
        ("\n".to_string(), "refused 22 1\n"),
        ("size 2 2".to_string(), "refused 22 1\n"),
        ("size 6 2".to_string(), "refused 22 1\n"),
        ("size 6 2\n".to_string(), "refused 25 1\n"),
        ("size 6 2\nrubbish".to_string(), "refused 25 1\n"),
        ("size 7 8\n\n".to_string(), "refused 25 1\n"),
        ("size 6 9\n".to_string(), "refused 22 1\n"),
        ("size 8 1\n".to_string(), "refused 22 1\n"),
        ("size 0 1\n".to_string(), "refused 22 1\n"),
        ("size 1 0\n".to_string(), "refused 22 1\n"),
        ("size 02 2\n".to_string(), "refused 22 1\n"),
        ("size 2 2 \n".to_string(), "refused 22 1\n"),
        (" size 2 2\n".to_string(), "refused 22 1\n"),
        ("size  2 2\n".to_string(), "refused 22 1\n"),
        ("size 2 2\r\n".to_string(), "refused 22 1\n"),
        ("size 2 2\n".to_string(), "refused 22 2\n"),
        (P6[..P6.len() - 1].to_string(), "refused 22 8\n"),
        ([P6, "\n"].concat(), "refused 22 9\n"),
        ([P6, "ask c"].concat(), "refused 22 9\n"),
        ([P6, "ask ~"].concat(), "refused 22 9\n"),
        ([P6, "team 1\n"].concat(), "refused 22 9\n"),
        ([P6, "ask c\n\nask c\n"].concat(), "refused 22 10\n"),
        ([P6, "ask c\nknown\n"].concat(), "refused 22 10\n"),
        ("size 2 2\nread a 1 1\nread a 1 1".to_string(), "refused 22 3\n"),
        ("size 2 2\nread a 1 (\nread a 1 1".to_string(), "refused 4 2\n"),
        ("size 2 2\nteam 1 2\nread a 1 1\nknown\nmake a\n".to_string(), "refused 22 3\n"),
        ("size 2 2\nknown\nteam 1\nmake a\n".to_string(), "refused 22 2\n"),
        ("size 2 2\nteam 1\nteam 2\nknown\nmake a\n".to_string(), "refused 22 3\n"),
        ("team 1\nsize 2 2\n".to_string(), "refused 22 1\n"),
        ("size 2\n".to_string(), "refused 22 1\n"),
        ("size 2 2 2\n".to_string(), "refused 22 1\n"),
        ("size 2 2\nsize 2 2\n".to_string(), "refused 22 2\n"),
        ("size 2 2\nsize 6 2\n".to_string(), "refused 22 2\n"),
        ("size 6 2\nsize 6 2\n".to_string(), "refused 25 1\n"),
        ("size 6 2 \n".to_string(), "refused 22 1\n"),
        ([P6, "make b\n"].concat(), "refused 22 9\n"),
        ([P6, "ask ~\nask c"].concat(), "refused 4 9\n"),
        ([P6, "ask a\nask a\nask a\nask a\nask (\n"].concat(), "refused 22 13\n"),
        ([P6, "ask a\nask a\nask a\nask (\nask a\n"].concat(), "refused 4 12\n"),
    ]
}

/// Answers from paper 01, and to sheets that were settled one by one.
pub fn by_hand(group: &mut Group) {
    let head = "size 2 2\n";
    let tail = "team 1\nknown\nmake a\n";
    let mut by_hand = whole_sheets();
    by_hand.extend(WITH_RIGHTS.iter().map(|(rights, printed)| ([head, rights, tail].concat(), *printed)));
    by_hand.extend(IN_PLACE_OF.iter().map(|(old, new, printed)| ([head, &tail.replace(old, new)].concat(), *printed)));
    for (sheet, printed) in &by_hand {
        group.case(answer(sheet.as_bytes()) == *printed, || format!("this program's own answer to {sheet:?}"));
        expect(group, sheet.as_bytes(), printed.len() + 9, printed);
    }
}
