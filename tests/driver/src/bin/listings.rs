//! `listings LAUNCH FOLDER [--write]`: for each listing FOLDER/NAME.txt checks that its words are those of the file FOLDER/NAME,
//! and that the built program `vault` and the reference kernel print the output it quotes. With `--write` the files are first
//! made from their listings. LAUNCH is the script that starts a built program.
use driver::{files, print_of, Tally};
use reference::{gen::to_bytes, program, Engine};
use std::fs;
use std::path::Path;

/// The parts of a listing, by the first word of their headings.
const PARTS: [&str; 4] = ["Head", "Plan", "Events", "Output"];
const OUTPUT: usize = 3;

/// What a listing says: the words of head, plan and events, and the lines that must be printed.
#[derive(Default)]
struct Listing {
    words: [Vec<u32>; 3],
    output: String,
}

/// The value of a line 'index value meaning', where the index must be the given one.
fn value(line: &str, index: usize) -> Result<u32, String> {
    let mut fields = line.split_ascii_whitespace();
    let at: usize = fields.next().and_then(|field| field.parse().ok()).ok_or("no index")?;
    if at != index {
        return Err(format!("index {at} where {index} is next"));
    }
    let value = fields.next().and_then(|field| field.parse().ok()).ok_or("no value")?;
    fields.next().ok_or("no meaning")?;
    Ok(value)
}

/// The printed line of 'printed line | meaning'.
fn printed(line: &str) -> Result<&str, String> {
    let (printed, meaning) = line.split_once('|').ok_or("no meaning")?;
    if meaning.trim().is_empty() {
        return Err("no meaning".to_string());
    }
    Ok(printed.trim())
}

impl Listing {
    fn bytes(&self) -> Vec<u8> {
        to_bytes(&self.words.concat())
    }

    fn take(&mut self, part: usize, line: &str) -> Result<(), String> {
        if part == OUTPUT {
            self.output.push_str(printed(line)?);
            self.output.push('\n');
        } else {
            let words = &mut self.words[part];
            words.push(value(line, words.len())?);
        }
        Ok(())
    }

    fn read(text: &str) -> Result<Listing, String> {
        let mut listing = Listing::default();
        let mut part = None;
        for (number, line) in text.lines().enumerate() {
            let told = |what: &str| format!("line {}: {what}", number + 1);
            if line.is_empty() || line.starts_with('#') {
                continue;
            }
            if let Some(heading) = line.strip_prefix("== ") {
                let found = PARTS.iter().position(|name| heading.starts_with(name));
                part = Some(found.ok_or_else(|| told("a heading of no part"))?);
                continue;
            }
            let part = part.ok_or_else(|| told("before the first heading"))?;
            listing.take(part, line).map_err(|what| told(&what))?;
        }
        Ok(listing)
    }
}

fn check(tally: &mut Tally, launch: &str, name: &str, listing: &Listing, file: &Path) {
    let bytes = fs::read(file).unwrap_or_default();
    let same = bytes == listing.bytes();
    tally.record(&format!("{name}, words"), same, || "the file has other words than its listing".to_string());
    let by_vault = String::from_utf8_lossy(&print_of(launch, "vault", &bytes)).into_owned();
    let by_reference = program(&bytes, Engine::Simple);
    for (by, text) in [("vault", by_vault), ("reference", by_reference)] {
        let told = || format!("printed\n{text}where the listing has\n{}", listing.output);
        tally.record(&format!("{name}, {by}"), text == listing.output, told);
    }
}

fn main() {
    let args: Vec<String> = std::env::args().collect();
    let (launch, folder) = (&args[1], &args[2]);
    let write = args.get(3).is_some_and(|option| option == "--write");
    let mut tally = Tally::default();
    for path in files(folder, "txt") {
        let name = path.file_stem().expect("a name").to_string_lossy().into_owned();
        let file = path.with_extension("");
        match Listing::read(&fs::read_to_string(&path).expect("the listing")) {
            Ok(listing) => {
                if write {
                    fs::write(&file, listing.bytes()).expect("the file can be written");
                }
                check(&mut tally, launch, &name, &listing, &file);
            }
            Err(what) => tally.record(&name, false, || what),
        }
    }
    tally.close();
}
