//! The functions of the wrapper on small inputs: every part of an answer, outputs of every length, and what a refusal says.

mod common;

use std::thread;

use common::{entry, refusal, run, MORE, SHEET};
use mezhukan::*;

const IF: &[u8] = b"P,2,1,1,1\nI,1,1,1,0\nC,4\nD,0\nK,-3\nA,2,1,1\nK,1\n";

#[test]
fn compiles() {
    let code = vec![26, 4, 0, 0, 0, 0, 6, 0, 5, 1, 0, 4, 1, 0];
    let lines = vec![entry(0, 1, 1), entry(8, 2, 1)];
    assert_eq!(compile(SHEET, b"", IF), Ok(Compiled { code, constants: vec![-3, 1], lines, depth: 1 }));
}

#[test]
fn rewrites() {
    let rule = b"1,2,3,1,0,1,0,1,0\n";
    let code = [3, 0, 0, 4, 0, 0, 3, 1, 0, 4, 2, 0];
    let got = rewrite_alone(SHEET, rule, &code, &[12, 6], &[entry(0, 1, 1), entry(9, 2, 1)]);
    let rewritten =
        Rewritten { code: code[6..].to_vec(), protected: vec![6, 0], lines: vec![entry(0, 1, 1), entry(3, 2, 1)] };
    assert_eq!(got, Ok(rewritten));
    assert_eq!(rewrite_alone(SHEET, rule, &code, &[1], &[]), Err(refusal(8, 1)));
}

#[test]
fn checks_images() {
    let most = [27; MAX_CODE + 1];
    let bad_field = [&SHEET[..SHEET.len() - 2], b"5\n"].concat();
    let answers: [(&[u8], &[u8], u64, _); 12] = [
        (SHEET, &[27, 255], 0, Ok(())),
        (SHEET, &[6, 2], 1, Ok(())),
        (SHEET, &most[1..], 0, Ok(())),
        (SHEET, &most, 0, Err(refusal(10, 0))),
        (&SHEET[2..], &most, 0, Err(refusal(7, 0))),
        (&bad_field, &[2, 255], 0, Err(refusal(7, 33))),
        (SHEET, &[2, 255], 0, Err(refusal(20, 0))),
        (SHEET, &[24, 255, 255], 0, Err(refusal(20, 0))),
        (SHEET, &[2], 0, Err(refusal(21, 0))),
        (SHEET, &[6, 2], 0, Err(refusal(21, 0))),
        (SHEET, &[3, 0, 0, 27], 1, Err(refusal(21, 0))),
        (SHEET, &[6, 24, 252, 255], u64::MAX, Err(refusal(21, 0))),
    ];
    for (sheet, code, depth, answer) in answers {
        assert_eq!(check_image(sheet, code, depth), answer, "for {code:?} at {depth}");
    }
}

#[test]
fn slowest_calls() {
    let most = [27; MAX_CODE + 1];
    let bad_field = [&SHEET[..SHEET.len() - 2], b"5\n"].concat();
    let answers: [(&[u8], &[u8], u64, _); 14] = [
        (SHEET, &[27], 0, Ok(run(1, &[]))),
        (SHEET, &[6, 25, 0, 0], 1, Ok(run(2, &[false]))),
        (SHEET, &[6, 25, 1, 0, 27, 6, 2, 27], 1, Ok(run(5, &[true]))),
        (SHEET, &[6, 25, 4, 0, 27, 24, 1, 0, 27], 1, Ok(run(3, &[false]))),
        (SHEET, &[6, 25, 1, 0, 27, 6, 25, 0, 0], 1, Ok(run(4, &[true, false]))),
        (SHEET, &[27, 24, 80, 0], 0, Ok(run(1, &[]))),
        (SHEET, &[27, 24, 253, 255], 0, Ok(Slowest::Loops)),
        (SHEET, &[24, 253, 255], 0, Ok(Slowest::Loops)),
        (SHEET, &most[1..], 0, Ok(run(1, &[]))),
        (SHEET, &most, 0, Err(refusal(10, 0))),
        (&SHEET[2..], &most, 0, Err(refusal(7, 0))),
        (&bad_field, &[2, 255], 0, Err(refusal(7, 33))),
        (SHEET, &[2, 255], 0, Err(refusal(20, 0))),
        (SHEET, &[6, 24, 252, 255], u64::MAX, Err(refusal(21, 0))),
    ];
    for (sheet, code, depth, answer) in answers {
        assert_eq!(slowest(sheet, code, depth), answer, "for {code:?} at {depth}");
    }
}

/// A depth is not cut to fewer bits.
#[test]
fn any_depth() {
    for depth in [1, 65535, 65536, 1 << 32, u64::MAX] {
        assert_eq!(check_image(SHEET, &[6, 2], depth), Ok(()), "at {depth}");
        assert_eq!(slowest(SHEET, &[6, 2], depth), Ok(run(2, &[])), "at {depth}");
    }
}

#[test]
fn finished_code_passes() {
    let Compiled { code, depth, .. } = compile(SHEET, b"", b"P,1,1,1,0\nA,1,1,0\nO,0\nD,0\nD,0\n").unwrap();
    assert_eq!((depth, check_image(SHEET, &code, depth)), (2, Ok(())));
    assert_eq!(slowest(SHEET, &code, depth), Ok(run(4, &[])));
    assert_eq!(check_image(SHEET, &code, depth - 1), Err(refusal(21, 0)));
    assert_eq!(slowest(SHEET, &code, depth - 1), Err(refusal(21, 0)));
}

#[test]
fn slowest_calls_of_finished_code() {
    let of = |program| compile(SHEET, b"", program).map(|compiled| slowest(SHEET, &compiled.code, compiled.depth));
    assert_eq!(of(IF), Ok(Ok(run(3, &[false]))));
    assert_eq!(of(b"P,0,1,1,1\nL,1,1,0,0,0\n"), Ok(Ok(Slowest::Loops)));
}

#[test]
fn empty_inputs() {
    assert_eq!(compile(b"", b"", b""), Err(refusal(7, 0)));
    assert_eq!(compile(SHEET, b"", b""), Err(refusal(1, 0)));
    assert_eq!(rewrite_alone(b"", b"", b"", &[], &[]), Err(refusal(7, 0)));
    let none = Rewritten { code: vec![], protected: vec![], lines: vec![] };
    assert_eq!(rewrite_alone(SHEET, b"", b"", &[], &[]), Ok(none));
    assert_eq!(check_image(b"", b"", 0), Err(refusal(7, 0)));
    assert_eq!(check_image(SHEET, b"", 0), Ok(()));
    assert_eq!(slowest(b"", b"", 0), Err(refusal(7, 0)));
    assert_eq!(slowest(SHEET, b"", 0), Ok(run(0, &[])));
}

/// Each output in turn as long as its limit, longer, one too short, empty: an answer and zeros, or 14 and zeros.
#[test]
fn lent_outputs() {
    for (which, limit) in [MAX_CODE, MAX_CONSTANTS, MAX_LINES].into_iter().enumerate() {
        for length in [limit, limit + MORE, limit - 1, 0] {
            let room = |at, other| if at == which { length } else { other };
            let mut code = vec![0xA5; room(0, MAX_CODE)];
            let mut constants = vec![-1; room(1, MAX_CONSTANTS)];
            let mut lines = vec![entry(9, 9, 9); room(2, MAX_LINES)];
            let got = compile_into(SHEET, b"", IF, &mut code, &mut constants, &mut lines)
                .map(|c| (c.code.len(), c.constants.len(), c.lines.len()));
            let (bytes, pool, entries) = if length < limit { (0, 0, 0) } else { (14, 2, 2) };
            assert_eq!(got, if length < limit { Err(refusal(14, 0)) } else { Ok((bytes, pool, entries)) });
            assert!(code[bytes..].iter().all(|byte| *byte == 0));
            assert!(constants[pool..].iter().all(|constant| *constant == 0));
            assert!(lines[entries..].iter().all(|line| *line == entry(0, 0, 0)));
        }
    }
}

#[test]
fn lent_outputs_of_rewriting() {
    for (which, limit) in [MAX_CODE, MAX_PROTECTED, MAX_LINES].into_iter().enumerate() {
        for length in [limit, limit + MORE, limit - 1, 0] {
            let room = |at, other| if at == which { length } else { other };
            let mut bytes = vec![0xA5; room(0, MAX_CODE)];
            let mut offsets = vec![9; room(1, MAX_PROTECTED)];
            let mut entries = vec![entry(9, 9, 9); room(2, MAX_LINES)];
            let got = rewrite_alone_into(
                SHEET,
                b"",
                &[27],
                &[1, 0],
                &[entry(0, 7, 1)],
                &mut bytes,
                &mut offsets,
                &mut entries,
            );
            let kept = usize::from(length >= limit);
            match got {
                Ok(r) => {
                    assert_eq!((kept, r.code, r.protected, r.lines), (1, &[27][..], &[1, 0][..], &[entry(0, 7, 1)][..]))
                }
                Err(refused) => assert_eq!((kept, refused), (0, refusal(14, 0))),
            }
            assert!(bytes[kept..].iter().all(|byte| *byte == 0));
            assert!(offsets[kept..].iter().skip(kept).all(|offset| *offset == 0));
            assert!(entries[kept..].iter().all(|line| *line == entry(0, 0, 0)));
        }
    }
}

/// The same of the slowest call: a run, a loop, a refusal.
#[test]
fn lent_outcomes() {
    let taken = SlowestIn::Run { count: 4, outcomes: &[1, 0] };
    let answers: [(&[u8], _); 3] = [
        (&[6, 25, 1, 0, 27, 6, 25, 0, 0], Ok(taken)),
        (&[27, 24, 253, 255], Ok(SlowestIn::Loops)),
        (&[2], Err(refusal(21, 0))),
    ];
    for length in [MAX_OUTCOMES, MAX_OUTCOMES + MORE, MAX_OUTCOMES - 1, 0] {
        for (code, answer) in answers {
            let answer = if length < MAX_OUTCOMES { Err(refusal(14, 0)) } else { answer };
            let mut outcomes = vec![0xA5; length];
            assert_eq!(slowest_into(SHEET, code, 1, &mut outcomes), answer, "for {code:?} into {length}");
            let used = if answer == Ok(taken) { 2 } else { 0 };
            assert!(outcomes[used..].iter().all(|byte| *byte == 0));
        }
    }
}

#[test]
fn from_several_threads() {
    let program = |n: usize| format!("P,{0},1,1,1\nA,1,1,{1}\nK,{1}\n", n + 1, n).into_bytes();
    let alone: Vec<_> = (0..8).map(|n| compile(SHEET, b"", &program(n))).collect();
    thread::scope(|scope| {
        for (n, alone) in alone.iter().enumerate() {
            let call = move || (0..500).for_each(|_| assert_eq!(&compile(SHEET, b"", &program(n)), alone));
            thread::Builder::new().stack_size(STACK).spawn_scoped(scope, call).expect("a thread");
        }
    });
}

#[test]
fn what_a_refusal_says() {
    let texts = [
        (1, 0, "1,0: program empty, over 65536 bytes, or not ended by LF"),
        (2, 5, "2,5: wrong letter, wrong field count, or malformed number, at line 5 of the program"),
        (3, 2, "3,2: number outside its range, at line 2 of the program"),
        (4, 2, "4,2: no open loop of that number, at line 2 of the program"),
        (5, 66, "5,66: nesting over 64, at line 66 of the program"),
        (6, 1, "6,1: line missing or left over, at line 1 of the program"),
        (7, 0, "7,0: bad sheet: its line or field count"),
        (7, 33, "7,33: bad sheet, at field 33"),
        (8, 1, "8,1: unlisted opcode, cut instruction, or protected or line offset neither start nor end, at offset 1"),
        (9, 2, "9,2: bad rule, at line 2 of the rules"),
        (10, 0, "10,0: code over 65535 bytes"),
        (11, 0, "11,0: over 4096 labels or 4096 protected offsets"),
        (12, 0, "12,0: over 4096 line entries"),
        (13, 0, "13,0: over 1024 constants"),
        (14, 0, "14,0: a lent output shorter than its limit"),
        (15, 19, "15,19: branch over 32768 bytes back or 32767 forward, at offset 19 of finished code"),
        (20, 0, "20,0: a run reaches a place that is neither start nor end"),
        (21, 0, "21,0: empty stack popped, depth exceeded, unempty end, or a start at two heights"),
    ];
    for (number, place, text) in texts {
        assert_eq!(refusal(number, place).to_string(), text);
        assert_eq!(refusal(number, place).reason().map(|reason| reason as u8), Some(number));
    }
    for number in [0, 16, 19, 22, 255] {
        let unknown = format!("{number},3: a refusal that this crate does not know");
        assert_eq!((refusal(number, 3).to_string(), refusal(number, 3).reason()), (unknown, None));
    }
    let boxed: Box<dyn std::error::Error + Send + Sync> = compile(SHEET, b"", b"").unwrap_err().into();
    assert_eq!(boxed.to_string(), texts[0].2);
}
