//! `vectors LAUNCH FOLDER`: runs the built program `cases` on FOLDER/cases.in and compares each line with FOLDER/cases.out, and
//! the built program `vault` on each FOLDER/program/*.in. LAUNCH is the script that starts a built program.
use driver::{files, print_of, split, Tally};
use std::fs;

fn main() {
    let args: Vec<String> = std::env::args().collect();
    let (launch, folder) = (&args[1], &args[2]);
    let stream = fs::read(format!("{folder}/cases.in")).expect("cases.in");
    let expected = fs::read_to_string(format!("{folder}/cases.out")).expect("cases.out");
    let mut input = vec![];
    let mut wanted = vec![];
    for (number, (case, line)) in split(&stream).iter().zip(expected.lines()).enumerate() {
        input.extend_from_slice(case.bytes);
        wanted.push((number, case.entry, line));
    }
    let printed = String::from_utf8(print_of(launch, "cases", &input)).expect("text");
    let mut lines = printed.lines();
    let mut tally = Tally::default();
    for (number, entry, line) in wanted {
        let got = lines.next().unwrap_or("nothing");
        tally.record(&format!("case {number}, entry {entry}"), got == line, || format!("printed {got}, expected {line}"));
    }
    tally.record("after the last case", lines.next().is_none(), || "more lines than cases".to_string());
    for path in files(&format!("{folder}/program"), "in") {
        let expected = fs::read(path.with_extension("out")).expect("the output");
        let printed = print_of(launch, "vault", &fs::read(&path).expect("the input"));
        let name = path.file_name().expect("a name").to_string_lossy().into_owned();
        tally.record(&name, printed == expected, || format!("printed {}", String::from_utf8_lossy(&printed)));
    }
    tally.close();
}
