//! The functions of the wrapper on code at its limit, and on branches that lead as far as they may and further.

mod common;

use common::{entry, refusal, run, MORE, SHEET};
use mezhukan::*;

/// Bytes of code of a CASE as `case` writes it, beside its labels, and of each label.
const CASE_SIZE: usize = 5;
const LABEL_SIZE: usize = 19;
/// As many labels as `looped` and `guarded` may have.
const MOST: usize = 1724;

/// A CASE of one arm with so many labels.
fn case(labels: usize) -> String {
    format!("S,0,0,1,0\nD,0\nM,{labels},0\n{}", "G,0,1\n".repeat(labels))
}

/// So many RETURNs, a byte of code each.
fn returns(count: usize) -> String {
    "R,0,0\n".repeat(count)
}

/// A loop around a CASE and RETURNs: its last branch leads back over all of it.
fn looped(labels: usize, count: usize) -> String {
    format!("P,1,1,0,0\nL,0,0,0,{},0\n{}{}", count + 1, case(labels), returns(count))
}

/// An IF around them: its branch leads forward over both.
fn guarded(labels: usize, count: usize) -> String {
    format!("P,1,1,0,0\nI,0,0,{},0\nB,1\n{}{}", count + 1, case(labels), returns(count))
}

/// CASEs of 100 labels in turn and RETURNs behind them, in all so many bytes of code, and no far branch; then as many statements more.
fn long(bytes: usize, more: &[&str]) -> String {
    let size = CASE_SIZE + 100 * LABEL_SIZE;
    let (cases, rest) = (bytes / size, bytes % size);
    let statements = cases + rest + more.len();
    format!("P,1,{statements},0,0\n{}{}{}", case(100).repeat(cases), returns(rest), more.concat())
}

/// Just near and just far, back and forward; of two far branches the lower; one that is not reached.
#[test]
fn far_branches() {
    let answers = [
        (looped(MOST, 0), Ok(32764)),
        (looped(MOST, 4), Ok(MAX_BACK)),
        (looped(MOST, 5), Err(refusal(15, 32766))),
        (looped(MOST + 1, 0), Err(refusal(15, 32780))),
        (looped(MOST + 2, 0), Err(refusal(15, 19))),
        (looped(MOST + 1, 0).replace("P,1,1,0,0\n", "P,1,2,0,0\nR,0,0\n"), Err(refusal(15, 32781))),
        (guarded(MOST, 6), Ok(4 + MAX_FORWARD)),
        (guarded(MOST, 7), Err(refusal(15, 1))),
    ];
    for (program, answer) in answers {
        let got = compile(SHEET, b"", program.as_bytes());
        assert_eq!(got.map(|compiled| compiled.code.len()), answer, "for {}", &program[..40]);
    }
}

/// A loop that is too far as emitted, and near once a rule has removed what 200 empty CASEs make.
#[test]
fn near_after_the_passes() {
    let program = format!("P,1,1,0,0\nL,0,0,0,201,0\n{}{}", case(1700), "S,0,0,0,0\nD,0\n".repeat(200));
    let length = |rules| compile(SHEET, rules, program.as_bytes()).map(|compiled| compiled.code.len());
    assert_eq!(length(b""), Err(refusal(15, 33105)));
    assert_eq!(length(b"1,2,1,0,0,1,0,1,0\n"), Ok(32312));
}

/// The farthest branches, in bytes; the check follows them.
#[test]
fn farthest_branches() {
    let back = compile(SHEET, b"", looped(MOST, 4).as_bytes()).unwrap();
    assert_eq!(back.code[MAX_BACK - 3..], [24, 0, 128]);
    assert_eq!(check_image(SHEET, &back.code, back.depth), Ok(()));
    assert_eq!(slowest(SHEET, &back.code, back.depth), Ok(Slowest::Loops));
    let forward = compile(SHEET, b"", guarded(MOST, 6).as_bytes()).unwrap();
    assert_eq!(forward.code[..4], [6, 25, 255, 127]);
    assert_eq!(check_image(SHEET, &forward.code, forward.depth), Ok(()));
    let Ok(Slowest::Run { count, outcomes }) = slowest(SHEET, &forward.code, forward.depth) else { panic!("no run") };
    // LOAD_TRUE, the branch, the selector; eight for each label, the last of which fits; POP, JMP, RET.
    assert_eq!((count, outcomes.len()), (6 + 8 * MOST as u64, 1 + 2 * MOST));
}

/// Every element of what is lent is 0 after 15, also behind the limits.
#[test]
fn outputs_after_a_far_branch() {
    let mut code = vec![0xA5; MAX_CODE + MORE];
    let mut constants = vec![-1; MAX_CONSTANTS + MORE];
    let mut lines = vec![entry(9, 9, 9); MAX_LINES + MORE];
    let got = compile_into(SHEET, b"", looped(MOST + 1, 0).as_bytes(), &mut code, &mut constants, &mut lines);
    assert_eq!(got, Err(refusal(15, 32780)));
    assert!(code.iter().all(|byte| *byte == 0));
    assert!(constants.iter().all(|constant| *constant == 0));
    assert!(lines.iter().all(|line| *line == entry(0, 0, 0)));
}

#[test]
fn code_at_its_limit() {
    let full = compile(SHEET, b"", long(MAX_CODE, &[]).as_bytes()).unwrap();
    assert_eq!((full.code.len(), full.code.last()), (MAX_CODE, Some(&27)));
    assert_eq!(check_image(SHEET, &full.code, full.depth), Ok(()));
    assert_eq!(compile(SHEET, b"", long(MAX_CODE + 1, &[]).as_bytes()).err(), Some(refusal(10, 0)));
}

/// A RETURN in a CASE behind 60,000 bytes of code has its entry where it stands: behind the selector, the test and POP.
#[test]
fn lines_of_long_code() {
    let Compiled { code, lines, .. } =
        compile(SHEET, b"", long(60000, &["S,0,0,1,0\nD,0\nM,1,1\nQ,1\nR,7,9\n"]).as_bytes()).unwrap();
    assert_eq!((code[60011], code[60012], lines), (2, 27, vec![entry(0, 0, 0), entry(60012, 7, 9)]));
}

/// The end is a place of 16 bits at the limit too: as a protected offset it stays or moves; an entry there is dropped, one before it is kept.
#[test]
fn rewriting_at_the_limit() {
    let (end, last) = (MAX_CODE as u16, entry(MAX_CODE as u16 - 1, 7, 1));
    let (returns, pairs) = (vec![27; MAX_CODE + 1], [[1, 2].repeat(MAX_CODE / 2), vec![27]].concat());
    let same = Rewritten { code: returns[1..].to_vec(), protected: vec![end, 0], lines: vec![last] };
    let removed = Rewritten { code: vec![27], protected: vec![1], lines: vec![entry(0, 7, 1)] };
    let none = |code| rewrite_alone(SHEET, b"", code, &[end], &[]).err();
    // No `assert_eq!`, which would print all of the code.
    assert!(rewrite_alone(SHEET, b"", &returns[1..], &[end, 0], &[last, entry(end, 8, 1)]) == Ok(same));
    assert!(rewrite_alone(SHEET, b"1,0,1,0,0,1,0,1,0\n", &pairs, &[end], &[last]) == Ok(removed));
    assert_eq!(none(&returns[2..]), Some(refusal(8, end.into())));
    assert_eq!(none(&returns), Some(refusal(10, 0)));
}

/// Called alone copies a branch as it is, however far it leads.
#[test]
fn rewriting_gives_no_far_branch() {
    for code in [[24, 0, 128], [24, 255, 127]] {
        assert_eq!(rewrite_alone(SHEET, b"", &code, &[], &[]).map(|rewritten| rewritten.code), Ok(code.to_vec()));
    }
}

/// Branches of an image as far as a signed number of 16 bits leads: to the end, and past it; back.
#[test]
fn far_branches_of_images() {
    let full = |from: &[u8], middle: &[u8]| {
        let mut code = vec![27; MAX_CODE];
        code[..from.len()].copy_from_slice(from);
        code[3 + MAX_FORWARD..][..middle.len()].copy_from_slice(middle);
        code
    };
    let (jump, rest) = ([24, 255, 127], (MAX_CODE - 6 - MAX_FORWARD) as u16);
    let to = |displacement: u16| [&[24][..], &displacement.to_le_bytes()].concat();
    let answers = [
        (full(&jump, &[]), Ok(run(2, &[]))),
        (full(&jump, &to(rest)), Ok(run(2, &[]))),
        (full(&jump, &to(rest + 1)), Err(refusal(20, 0))),
        (full(&jump, &to(0x8000)), Ok(Slowest::Loops)),
        (full(&[6, 25, 254, 127], &[6, 2]), Ok(run(5, &[true]))),
    ];
    for (code, answer) in answers {
        assert_eq!(slowest(SHEET, &code, 1), answer);
        assert_eq!(check_image(SHEET, &code, 1), answer.map(|_| ()));
    }
}
