//! Stored answers (oracle/README.md says how they were made): rewriting called alone on the published Rust's, crates/passes_test/stdin, the check of
//! images on the oracle's, crates/images_test/stdin, and the slowest call on its, crates/slowest_test/stdin.

use mezhukan::{check_image, rewrite_alone, slowest, LineEntry, Refusal, Rewritten, Slowest};

const CRATES: &str = concat!(env!("CARGO_MANIFEST_DIR"), "/../../crates");
const LEAST: usize = 300;

/// The inputs of a crate's stdin, each with its answer.
fn stored(name: &str) -> Vec<(String, String)> {
    let text = std::fs::read_to_string(format!("{CRATES}/{name}/stdin")).expect("the stored answers");
    let parts: Vec<&str> = text.split("====\n").collect();
    parts.chunks_exact(2).map(|case| (case[0].to_string(), case[1].to_string())).collect()
}

/// What stands in an input. A line that is not read as numbers is empty: the answer is then one that comes before it.
struct Given {
    sheet: String,
    rules: String,
    code: Vec<u8>,
    protected: Vec<u16>,
    lines: Vec<LineEntry>,
}

fn numbers<T: std::str::FromStr>(line: &str) -> Vec<T> {
    line.split(',').map(str::parse).collect::<Result<_, _>>().unwrap_or_default()
}

fn entry(line: &str) -> LineEntry {
    match numbers(line)[..] {
        [offset, line, column] => LineEntry { offset, line, column },
        _ => LineEntry::default(),
    }
}

/// None where the count line is no number of lines: that is not the library's to answer.
fn read(input: &str) -> Option<Given> {
    let mut lines = input.split_inclusive('\n');
    let sheet = lines.next()?.to_string();
    let count: usize = lines.next()?.trim_end().parse().ok()?;
    let rules = lines.by_ref().take(count).collect();
    let mut lines = lines.map(str::trim_end);
    let code = numbers(lines.next().unwrap_or_default());
    let protected = numbers(lines.next().unwrap_or_default());
    Some(Given { sheet, rules, code, protected, lines: lines.map(entry).collect() })
}

/// A stored answer as the library gives it; none for `?`, a malformed line, and for `9,0`, a count line, which are the program's own.
fn expected(answer: &str) -> Option<Result<Rewritten, Refusal>> {
    let first: Vec<u64> = answer.lines().next()?.split(',').map(|field| field.parse().ok()).collect::<Option<_>>()?;
    match first[..] {
        [9, 0] => None,
        [number, place] => Some(Err(Refusal { number: number.try_into().ok()?, place })),
        _ => {
            let of = |letter| answer.lines().filter_map(move |line| line.strip_prefix(letter));
            let code = of("b,").flat_map(|line| numbers::<u16>(line).into_iter().skip(1)).map(|byte| byte as u8);
            let protected = of("p,").flat_map(numbers);
            Some(Ok(Rewritten {
                code: code.collect(),
                protected: protected.collect(),
                lines: of("l,").map(entry).collect(),
            }))
        }
    }
}

#[test]
fn the_stored_answers() {
    let mut compared = 0;
    for (input, answer) in stored("passes_test") {
        let (Some(given), Some(expected)) = (read(&input), expected(&answer)) else {
            continue;
        };
        let Given { sheet, rules, code, protected, lines } = &given;
        let got = rewrite_alone(sheet.as_bytes(), rules.as_bytes(), code, protected, lines);
        assert_eq!(got, expected, "for {input}");
        compared += 1;
    }
    println!("{compared} compared");
    assert!(compared >= LEAST, "{compared} compared");
}

/// Sheet, code and depth of an image, its input's three lines.
fn image(input: &str) -> (&[u8], Vec<u8>, u64) {
    let lines: Vec<&str> = input.split_inclusive('\n').collect();
    let [sheet, depth, code] = lines[..] else { panic!("not three lines: {input}") };
    let depth = depth.trim_end().parse().expect("a depth");
    let code = code.trim_end().split_terminator(',').map(|byte| byte.parse().expect("a byte")).collect();
    (sheet.as_bytes(), code, depth)
}

/// An image's answer, written as stored.
fn checked(input: &str) -> String {
    let (sheet, code, depth) = image(input);
    match check_image(sheet, &code, depth) {
        Ok(()) => "0,0\n".to_string(),
        Err(Refusal { number, place }) => format!("{number},{place}\n"),
    }
}

/// The answer of its slowest call, written as stored: number, place, whether it loops, the count, and the outcomes.
fn measured(input: &str) -> String {
    let (sheet, code, depth) = image(input);
    match slowest(sheet, &code, depth) {
        Ok(Slowest::Run { count, outcomes }) => {
            let outcomes: String = outcomes.iter().map(|taken| if *taken { ",1" } else { ",0" }).collect();
            format!("0,0,0,{count}{outcomes}\n")
        }
        Ok(Slowest::Loops) => "0,0,1,0\n".to_string(),
        Err(Refusal { number, place }) => format!("{number},{place},0,0\n"),
    }
}

/// Every stored answer of a crate is ours.
fn same(name: &str, ours: fn(&str) -> String) {
    let images = stored(name);
    for (input, answer) in &images {
        assert_eq!(&ours(input), answer, "for {input}");
    }
    println!("{} compared", images.len());
    assert!(images.len() >= LEAST, "{} compared", images.len());
}

#[test]
fn the_stored_images() {
    same("images_test", checked);
}

#[test]
fn the_stored_slowest_calls() {
    same("slowest_test", measured);
}
