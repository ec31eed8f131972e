//! The conversion at worked cases: what is refused, what comes out unaltered, what is split, where the second part
//! starts, and that the two parts together have the long passage's rows and outcome.

use super::{MARK, WHOLE, conversion, convert, long_passage, parts, printed, refused, rising};
use reference::conversion::Conversion;
use reference::passage::Refused;
use reference::rows::{self, Parts};
use reference::sheet::{MOST_PLACES, Refusal, Sheet, Start, read, read_stored, start, term, text};

#[test]
fn a_sheet_that_is_refused_as_a_sheet_gives_the_refusal_alone() {
    for steps in [1, 240, 241, 400] {
        let sheet = String::from_utf8(text(&rising(steps))).unwrap();
        let with = |old: &str, new: &str| {
            assert_eq!(sheet.matches(old).count(), 1, "{old}");
            printed(sheet.replace(old, new).as_bytes())
        };
        assert_eq!(with("tail=2\n", "tail=02\n"), refused(2, 0));
        assert_eq!(with("tail=2\n", "tail=1\n"), refused(3, 0));
        assert_eq!(with("start=0\n", "start=none\n"), refused(4, 0));
        assert_eq!(with("second=0\n", "second=0\n\n"), refused(2, 0));
        assert_eq!(with("second=0\n", "second=0"), refused(2, 0));
        let long = format!("{sheet}{}", "n".repeat(4097 - sheet.len()));
        assert_eq!(printed(long.as_bytes()), refused(1, 0));
        assert_eq!(printed(&long.as_bytes()[..4096]), refused(2, 0));
    }
    assert_eq!(printed(b""), refused(2, 0));
}

#[test]
fn stored_steps_are_read_to_400() {
    let with_steps = |steps: &str| {
        let sheet = String::from_utf8(text(&rising(1))).unwrap();
        let sheet = sheet.replace("steps=1\n", &format!("steps={steps}\n"));
        printed(sheet.as_bytes())
    };
    assert_eq!(with_steps("0"), refused(3, 0));
    assert_eq!(with_steps("401"), refused(3, 0));
    assert_eq!(with_steps("999999999"), refused(3, 0));
    assert_eq!(with_steps("1000000000"), refused(2, 0));
    assert_eq!(with_steps("0400"), refused(2, 0));
    assert!(with_steps("400").starts_with("n=2\nsteps=240\n"));
    assert!(with_steps("1").starts_with("n=2\nsteps=1\n"));
}

/// 401 steps are met in their place: a misspelt line above them decides, one below does not.
#[test]
fn the_first_fault_decides() {
    let sheet = String::from_utf8(text(&rising(401))).unwrap();
    let below = sheet.replace("tol=", "tal=");
    assert_eq!(printed(below.as_bytes()), refused(3, 0));
    let above = sheet.replace("n=2\n", "n=02\n");
    assert_eq!(printed(above.as_bytes()), refused(2, 0));
}

/// Whatever its passage would do, and no row is worked out.
#[test]
fn up_to_240_steps_come_out_unaltered() {
    let too_large = Sheet {
        starts: vec![start(1 << 29, 1)],
        ..rising(240)
    };
    let too_long = Sheet {
        step: WHOLE,
        terms: vec![term(1, WHOLE, 1, 1)],
        ..rising(240)
    };
    let too_wide = Sheet {
        tol: 1,
        ..rising(1)
    };
    for sheet in [
        rising(1),
        rising(239),
        rising(240),
        too_large,
        too_long,
        too_wide,
    ] {
        let sheet = text(&sheet);
        for places in [0, 1, MOST_PLACES] {
            let (conversion, converted) = convert(&sheet, places);
            assert_eq!(conversion, Conversion::Unaltered);
            assert_eq!(converted.text(), sheet);
            assert_eq!(converted.rows, vec![MARK; places]);
        }
    }
}

#[test]
fn more_than_240_steps_become_two_sheets() {
    for steps in [241, 300, 400] {
        let sheet = rising(steps);
        let [first, second] = parts(&sheet);
        let expected_first = Sheet {
            steps: 240,
            ..sheet.clone()
        };
        assert_eq!(first, expected_first);
        assert_eq!(second.steps, steps - 240);
        let (rows, _) = long_passage(&first);
        let Parts { values, radii, .. } = rows::parts(&rows[239 * 9..]);
        let starts: Vec<Start> = values
            .iter()
            .zip(radii)
            .map(|(&v, &r)| start(v, r))
            .collect();
        assert_eq!(second.starts, starts);
        let expected_second = Sheet {
            steps: second.steps,
            starts,
            ..sheet.clone()
        };
        assert_eq!(second, expected_second);
    }
}

/// The bytes: an empty line between the two, none at the end, every other line as it stands in the stored sheet.
#[test]
fn the_two_sheets_as_printed() {
    let still = "n=1\nsteps=300\nstep=-7\ntail=9\ntol=40\nstart=-5\nradius=33\nterms=2\n\
        to=1\ncoef=-8\nfirst=1\nsecond=1\nto=1\ncoef=8\nfirst=1\nsecond=1\n";
    let first = still.replace("steps=300", "steps=240");
    let second = still.replace("steps=300", "steps=60");
    assert_eq!(printed(still.as_bytes()), format!("{first}\n{second}"));
    let moving = text(&rising(300));
    let text = printed(&moving);
    let sheets: Vec<&str> = text.split("\n\n").collect();
    assert_eq!(sheets.len(), 2);
    let first = format!("{}\n", sheets[0]);
    assert_eq!(first.into_bytes(), text_with_steps(&moving, "240"));
    let second = read(sheets[1].as_bytes()).unwrap();
    assert_eq!(second, parts(&rising(300))[1]);
    assert!(text.ends_with("second=0\n") && !text.ends_with("\n\n"));
}

fn text_with_steps(sheet: &[u8], steps: &str) -> Vec<u8> {
    let sheet = std::str::from_utf8(sheet).unwrap();
    let sheet = sheet.replace("steps=300\n", &format!("steps={steps}\n"));
    sheet.into_bytes()
}

/// A sheet that is read has at most 1,554 bytes, so two of them and a line feed have less than 4,096.
#[test]
fn the_longest_sheets() {
    let sheet = Sheet {
        steps: 400,
        step: -16777216,
        tail: 10000000,
        tol: 100000000,
        starts: vec![start(-400000000, 100000000); 8],
        terms: vec![term(8, -100000000, 8, 8); 32],
    };
    assert_eq!(text(&sheet).len(), 1554);
    assert_eq!(read_stored(&text(&sheet)), Ok(sheet.clone()));
    assert_eq!(conversion(&sheet), refused_at(Refusal::StepTooLong, 1));
    // The same, but that its terms cancel: 23 of -100,000,000 and 9 that come to 2,300,000,000.
    let mut still = sheet;
    for term in &mut still.terms[..9] {
        term.coef = 255555555;
    }
    still.terms[0].coef += 5;
    assert_eq!(text(&still).len(), 1545);
    assert_eq!(printed(&text(&still)).len(), 2 * 1545 + 1);
}

fn refused_at(refusal: Refusal, at: usize) -> Conversion {
    Conversion::Refused(Refused { refusal, at })
}

/// The steps of the first part are asked as ever; a refusal after them is the second sheet's.
#[test]
fn a_refusal_in_the_first_240_steps() {
    let sheet = rising(300);
    let (rows, _) = long_passage(&sheet);
    let widest = |row: usize| {
        *rows::parts(&rows[(row - 1) * 9..][..9])
            .radii
            .iter()
            .max()
            .unwrap()
    };
    for row in [1, 2, 239, 240] {
        let narrow = Sheet {
            tol: widest(row) - 1,
            ..sheet.clone()
        };
        assert_eq!(
            conversion(&narrow),
            refused_at(Refusal::RadiusTooLarge, row)
        );
        assert_eq!(printed(&text(&narrow)), refused(8, row));
    }
    let just_wide_enough = Sheet {
        tol: widest(240),
        ..sheet.clone()
    };
    let [_, second] = parts(&just_wide_enough);
    let (rows, outcome) = long_passage(&second);
    let refusal = Refusal::RadiusTooLarge;
    assert_eq!(outcome, Err(Refused { refusal, at: 1 }));
    assert_eq!(rows, []);
}

/// A quantity that nothing turns, so high that after so many rows |value| + radius is the limit and so much more.
fn too_large_after(row: usize, excess: i64) -> Sheet {
    let mut sheet = rising(300);
    sheet.starts[1] = start((1 << 29) - (1 << 20), 0);
    let (rows, outcome) = long_passage(&sheet);
    assert_eq!(outcome, Ok(()));
    let Parts { values, radii, .. } = rows::parts(&rows[(row - 1) * 9..][..9]);
    let missing = (1 << 29) + excess - values[1] - radii[1];
    sheet.starts[1] = start((1 << 29) - (1 << 20) + missing, 0);
    sheet
}

#[test]
fn the_last_row_is_asked_question_4() {
    let passing = too_large_after(240, 0);
    let [_, second] = parts(&passing);
    let large = second.starts[1];
    assert_eq!(large.value.unwrap() + large.radius, 1 << 29);
    let beyond = too_large_after(240, 1);
    assert_eq!(conversion(&beyond), refused_at(Refusal::ValueTooLarge, 241));
    assert_eq!(printed(&text(&beyond)), refused(6, 241));
    let (_, outcome) = long_passage(&beyond);
    let refusal = Refusal::ValueTooLarge;
    assert_eq!(outcome, Err(Refused { refusal, at: 241 }));
    let earlier = too_large_after(239, 1);
    assert_eq!(
        conversion(&earlier),
        refused_at(Refusal::ValueTooLarge, 240)
    );
    let [_, second] = parts(&too_large_after(241, 1));
    assert_eq!(long_passage(&second).1, Err(Refused { refusal, at: 2 }));
}

/// The first part's rows are in the buffer also where the step after them is refused.
#[test]
fn the_rows_of_the_first_part_are_written() {
    for sheet in [rising(300), too_large_after(240, 1)] {
        let (_, converted) = convert(&text(&sheet), 240 * 9 + 5);
        let (written, others) = converted.rows.split_at(240 * 9);
        assert_eq!(written, &long_passage(&sheet).0[..240 * 9]);
        assert_eq!(others, [MARK; 5]);
    }
}

/// Question 5 is not asked of the last row. The step is as long as it may be while a quantity is no larger than it is
/// before step 240, and the second sheet is refused at its first step.
#[test]
fn a_ratio_too_large_after_the_last_row_is_the_second_sheets() {
    let with = |coef| Sheet {
        starts: vec![start(WHOLE, 0), start(0, 0)],
        step: WHOLE / 100,
        terms: vec![term(1, WHOLE, 0, 0), term(2, coef, 2, 2)],
        ..rising(300)
    };
    // x rises from 1 by 0.01 at a step, and the ratio is coef × x ÷ 100: 15 × 3.39 ÷ 100 is about a half.
    let refused_at = |coef| long_passage(&with(coef)).1.map_err(|refused| refused.at);
    let mut coefs = (14 * WHOLE..16 * WHOLE).step_by(WHOLE as usize / 256);
    let coef = coefs.find(|&coef| refused_at(coef) == Err(241));
    let sheet = with(coef.expect("some coefficient has step 241 refused"));
    let refusal = Refusal::StepTooLong;
    assert_eq!(long_passage(&sheet).1, Err(Refused { refusal, at: 241 }));
    let [_, second] = parts(&sheet);
    assert_eq!(long_passage(&second).1, Err(Refused { refusal, at: 1 }));
    let answer = reference::answer::answer(&text(&second), &mut [MARK; MOST_PLACES]);
    assert_eq!(answer, refused(7, 1));
}

#[test]
fn a_long_sheet_needs_places_for_its_first_part() {
    let sheet = text(&rising(241));
    for places in [0, 1, 240 * 9 - 1] {
        let (conversion, converted) = convert(&sheet, places);
        assert_eq!(conversion, refused_at(Refusal::BufferTooShort, 0));
        assert_eq!(converted.text(), refused(5, 0).as_bytes());
        assert_eq!(converted.rows, vec![MARK; places]);
    }
    let enough = convert(&sheet, 240 * 9).1;
    assert_eq!(enough.text(), printed(&sheet).as_bytes());
    let misspelt = [&sheet[..], b"\n"].concat();
    let (conversion, _) = convert(&misspelt, 0);
    assert_eq!(conversion, refused_at(Refusal::Misspelt, 0));
}

/// What has been converted is converted to itself, part by part.
#[test]
fn a_conversion_is_not_converted_further() {
    for part in parts(&rising(400)) {
        assert_eq!(conversion(&part), Conversion::Unaltered);
    }
}
