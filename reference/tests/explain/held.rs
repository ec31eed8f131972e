//! Explanations held to what their sheets and passages say, by other means than those that found them: of the gallery,
//! document 01's cases and random sheets.

use super::{first_lines, number, numbers, values};
use reference::answer::{Summary, ending, run};
use reference::explain::explanation;
use reference::generate::{Trials, longest_step};
use reference::passage::{self, carry};
use reference::rows;
use reference::sheet::{LIMIT, MOST_BYTES, MOST_PLACES, Sheet, read, start, text};
use reference::step::{MOST_RATIO, Steps};
use std::fs;
use std::path::{Path, PathBuf};

/// Every sheet of a folder beside the second program, which has an answer stored beside it.
fn stored_sheets(folder: &str) -> Vec<PathBuf> {
    let folder = Path::new(env!("CARGO_MANIFEST_DIR")).join(folder);
    let files = fs::read_dir(folder).unwrap();
    let paths = files.map(|file| file.unwrap().path());
    let is_sheet = |path: &PathBuf| path.extension() == Some("sheet".as_ref());
    let sheets: Vec<PathBuf> = paths.filter(is_sheet).collect();
    assert!(sheets.len() >= 10, "{sheets:?}");
    sheets
}

#[test]
fn the_gallery_and_the_cases_end_as_their_stored_answers() {
    for path in ["../sheets", "../cases"].map(stored_sheets).concat() {
        let sheet = fs::read(&path).unwrap();
        let answer = fs::read_to_string(path.with_extension("answer")).unwrap();
        let outcome = &answer[answer.rfind("result=").unwrap()..];
        let text = explanation(&sheet);
        assert!(text.starts_with(outcome), "{}: {text}", path.display());
        hold_to_the_sheet(&sheet, &text);
    }
}

#[test]
fn random_sheets_end_as_their_answers() {
    let mut results = [0; 9];
    let mut rows = vec![0; MOST_PLACES];
    for trial in Trials::from_seed(9).take(2000) {
        let Summary { result, at, .. } = run(&trial.sheet, &mut rows);
        let text = explanation(&trial.sheet);
        assert!(text.starts_with(&ending(result, at)), "{text}");
        hold_to_the_sheet(&trial.sheet, &text);
        results[result as usize] += 1;
    }
    println!("{results:?}");
    for (result, &count) in results.iter().enumerate() {
        // The places suffice for every sheet.
        assert_eq!(count == 0, result == 5, "result {result}");
        assert!(count >= 20 || result == 5, "result {result}: {count}");
    }
}

/// Holds an explanation to what its sheet and the passage say, by other means than those that found it.
fn hold_to_the_sheet(sheet: &[u8], explanation: &str) {
    match number(explanation, "result") {
        1 => assert!(sheet.len() > MOST_BYTES),
        2..=4 => hold_to_the_line(sheet, explanation),
        result => {
            let sheet_read = read(sheet).unwrap();
            assert_eq!(text(&sheet_read), sheet);
            match result {
                0 => assert_eq!(explanation, ending(0, 0)),
                6 => hold_to_the_sizes(&sheet_read, explanation),
                7 => hold_to_the_ratio(&sheet_read, explanation),
                8 => hold_to_the_radii(&sheet_read, explanation),
                _ => panic!("{explanation}"),
            }
        }
    }
}

/// The lines above the line at fault are right: without the others, nothing is wrong but that the line is missing. And
/// that line is not: with a right one in its place, the first fault lies below it.
fn hold_to_the_line(sheet: &[u8], text: &str) {
    let line = number(text, "line") as usize;
    let [key, found, why] = ["key", "found", "why"].map(|key| values(text, key)[0]);
    let standing = sheet.split(|&byte| byte == b'\n').nth(line - 1);
    assert_eq!(found, shown(standing.unwrap()));
    let above = first_lines(sheet, line - 1);
    if key == "end" {
        assert_eq!(why, "after");
        assert!(read(&above).is_ok());
        return;
    }
    let cut = explanation(&above);
    let group = |text: &str| ["quantity", "term"].map(|key| numbers(text, key));
    assert_eq!(number(&cut, "line") as usize, line);
    assert_eq!(values(&cut, "key"), [key]);
    assert_eq!(values(&cut, "why"), ["missing"]);
    assert_eq!(group(&cut), group(text));
    assert_eq!(why == "missing", above.len() == sheet.len());
    let right = format!("{key}={}\n", number_in_range(key));
    let below = &sheet[first_lines(sheet, line).len()..];
    let mended = explanation(&[&above, right.as_bytes(), below].concat());
    let lines = numbers(&mended, "line");
    let refused_below = lines.iter().all(|&other| other > line as i64);
    // A sheet that only just had few enough bytes may have too many when it is mended.
    assert!(refused_below || number(&mended, "result") == 1, "{mended}");
}

/// A line as it is shown.
fn shown(line: &[u8]) -> String {
    let bytes = line.iter().map(|&byte| match byte {
        b'\\' | 0..=31 | 127..=255 => format!("\\x{byte:02x}"),
        _ => (byte as char).to_string(),
    });
    let bytes: Vec<String> = bytes.collect();
    let fits = |&count: &usize| bytes[..count].concat().len() <= 60;
    let most = (0..=bytes.len()).rev().find(fits).unwrap();
    let cut = if most < bytes.len() { "..." } else { "" };
    bytes[..most].concat() + cut
}

/// A number that the line may have in every sheet.
fn number_in_range(key: &str) -> i64 {
    match key {
        "tail" => 2,
        "start" | "radius" | "terms" | "coef" | "first" | "second" => 0,
        _ => 1,
    }
}

/// The sheet whose first step is the refused one of this passage.
fn from_the_refused_step(sheet: &Sheet, explanation: &str) -> Sheet {
    let at = number(explanation, "at") as usize;
    let mut rows = vec![0; MOST_PLACES];
    let refused = passage::run(sheet, &mut rows).unwrap_err();
    assert_eq!(refused.at, at);
    if at == 1 {
        return sheet.clone();
    }
    let row = &rows[(at - 2) * sheet.row_places()..][..sheet.row_places()];
    let row = rows::parts(row);
    let starts = row.values.iter().zip(row.radii);
    Sheet {
        starts: starts
            .map(|(&value, &radius)| start(value, radius))
            .collect(),
        ..sheet.clone()
    }
}

fn hold_to_the_sizes(sheet: &Sheet, explanation: &str) {
    let mut expected = ending(6, number(explanation, "at") as u64);
    let starts = from_the_refused_step(sheet, explanation).starts;
    for (start, quantity) in starts.iter().zip(1..) {
        let (value, radius) = (start.value.unwrap(), start.radius);
        let size = value.abs() + radius;
        if size > LIMIT {
            expected += &format!(
                "quantity={quantity}\nvalue={value}\nradius={radius}\nsize={size}\nmost={LIMIT}\n"
            );
        }
    }
    assert_eq!(explanation, expected);
}

fn hold_to_the_ratio(sheet: &Sheet, explanation: &str) {
    let sheet = from_the_refused_step(sheet, explanation);
    let scale = number(explanation, "scale") as u64;
    let ratio = number(explanation, "ratio") as u64;
    let longest = number(explanation, "longest");
    assert_eq!(number(explanation, "most") as u64, MOST_RATIO);
    assert!(ratio > MOST_RATIO);
    assert_eq!(Steps::of(&sheet).ratio(scale), ratio);
    let starts = sheet.starts.iter();
    let sizes = starts.map(|start| start.value.unwrap().abs() + start.radius);
    assert_eq!(scale as i64, sizes.fold(1 << 24, i64::max));
    assert_eq!(longest_step(&sheet, scale, MOST_RATIO).abs(), longest);
    assert!(!refused_ratio(&sheet, longest));
    assert!(refused_ratio(&sheet, longest + 1));
    hold_to_the_fastest(&sheet, scale, number(explanation, "quantity"), ratio);
}

/// Whether the sheet with a step of this length is refused with 7 at step 1.
fn refused_ratio(sheet: &Sheet, length: i64) -> bool {
    let step = sheet.step.signum() * length;
    let sheet = Sheet {
        step,
        ..sheet.clone()
    };
    let Summary { result, at, .. } = run(&text(&sheet), &mut vec![0; MOST_PLACES]);
    (result, at) == (7, 1)
}

/// Of all quantities, each with its own terms alone, this is the first with the fastest rate, which gives the ratio.
fn hold_to_the_fastest(sheet: &Sheet, scale: u64, quantity: i64, ratio: u64) {
    let rate = |wanted: i64| {
        let mut alone = sheet.clone();
        alone.terms.retain(|term| term.to == wanted);
        // Over a step of a whole the ratio is the rate's size.
        alone.step = 1 << 24;
        Steps::of(&alone).ratio(scale)
    };
    let n = sheet.starts.len() as i64;
    let fastest = (1..=n).map(rate).max().unwrap();
    assert_eq!((1..=n).find(|&i| rate(i) == fastest), Some(quantity));
    let length = sheet.step.unsigned_abs();
    assert_eq!((fastest * length + (1 << 24) - 1) >> 24, ratio);
}

fn hold_to_the_radii(sheet: &Sheet, explanation: &str) {
    let at = number(explanation, "at") as u64;
    let before = from_the_refused_step(sheet, explanation);
    // `carry` does not ask for the range of `tol`, so that this step is taken however wide its row.
    let roomy = Sheet {
        tol: i64::MAX,
        steps: 1,
        ..before.clone()
    };
    let mut row = vec![0; roomy.places()];
    carry(&roomy, &mut row).unwrap();
    let radii = rows::parts(&row).radii;
    let mut expected = ending(8, at);
    for ((radius, start), quantity) in radii.iter().zip(&before.starts).zip(1..) {
        if *radius > sheet.tol {
            let (earlier, tol) = (start.radius, sheet.tol);
            expected +=
                &format!("quantity={quantity}\nradius={radius}\nbefore={earlier}\nmost={tol}\n");
        }
    }
    assert_eq!(explanation, expected);
}
