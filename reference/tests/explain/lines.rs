//! A sheet that is not read: the line at fault, what stands there, and every word for what is wrong with it. A table has
//! each fault beside its explanation.

use super::{TWO, first_lines, with_line};
use reference::explain::explanation;

/// What stands in the place of a line of the sheet above, and the explanation that must come of it: the number of the
/// line, a blank and the bytes, then the number of the refusal and the lines of the explanation.
const BAD: [&str; 48] = [
    "1 N=2\n => 2; line=1; key=n; found=N=2; why=key",
    "1  n=2\n => 2; line=1; key=n; found= n=2; why=key",
    "1 \u{feff}n=2\n => 2; line=1; key=n; found=\\xef\\xbb\\xbfn=2; why=key",
    "1 n=\n => 2; line=1; key=n; found=n=; why=number",
    "2 step=3\n => 2; line=2; key=steps; found=step=3; why=key",
    "2 \n => 2; line=2; key=steps; found=; why=key",
    "2  => 2; line=2; key=steps; found=step=1024; why=key",
    "2 steps=-3\n => 2; line=2; key=steps; found=steps=-3; why=sign",
    "2 steps=-241\n => 2; line=2; key=steps; found=steps=-241; why=sign",
    "2 steps=--3\n => 2; line=2; key=steps; found=steps=--3; why=number",
    "3 step=-0\n => 2; line=3; key=step; found=step=-0; why=number",
    "3 step=none\n => 2; line=3; key=step; found=step=none; why=number",
    "4 tail=2.5\n => 2; line=4; key=tail; found=tail=2.5; why=number",
    "4 tail=+2\n => 2; line=4; key=tail; found=tail=+2; why=number",
    "5 tol=1000\r\n => 2; line=5; key=tol; found=tol=1000\\x0d; why=number",
    "5 tol=1000000000\n => 2; line=5; key=tol; found=tol=1000000000; why=number",
    "6 start=-0\n => 2; line=6; key=start; found=start=-0; why=number; quantity=1",
    "6 start=None\n => 2; line=6; key=start; found=start=None; why=number; quantity=1",
    "8 terms=2\n => 2; line=8; key=start; found=terms=2; why=key; quantity=2",
    "9 radius=-1\n => 2; line=9; key=radius; found=radius=-1; why=sign; quantity=2",
    "9 radius=-0\n => 2; line=9; key=radius; found=radius=-0; why=number; quantity=2",
    "9 radius=none\n => 2; line=9; key=radius; found=radius=none; why=number; quantity=2",
    "9 radius=01\n => 2; line=9; key=radius; found=radius=01; why=number; quantity=2",
    "10 terms=1\n => 2; line=15; key=end; found=to=2; why=after",
    "10 terms=3\n => 2; line=19; key=to; found=; why=missing; term=3",
    "10 terms=0\n => 2; line=11; key=end; found=to=1; why=after",
    "16 coef=1 000\n => 2; line=16; key=coef; found=coef=1 000; why=number; term=2",
    "16 coef\n => 2; line=16; key=coef; found=coef; why=key; term=2",
    "18 second=2 => 2; line=18; key=second; found=second=2; why=unended; term=2",
    "18 second= => 2; line=18; key=second; found=second=; why=unended; term=2",
    "18 second=03 => 2; line=18; key=second; found=second=03; why=unended; term=2",
    "18 second => 2; line=18; key=second; found=second; why=key; term=2",
    "18  => 2; line=18; key=second; found=; why=missing; term=2",
    "18 second=2\n\n => 2; line=19; key=end; found=; why=after",
    "18 second=2\n# a remark\nx\n => 2; line=19; key=end; found=# a remark; why=after",
    "1 n=0\n => 3; line=1; key=n; found=n=0; why=range; least=1; most=8",
    "2 steps=241\n => 3; line=2; key=steps; found=steps=241; why=range; least=1; most=240",
    "3 step=0\n => 3; line=3; key=step; found=step=0; why=range; least=-16777216; most=16777216; not=0",
    "3 step=-16777217\n => 3; line=3; key=step; found=step=-16777217; why=range; least=-16777216; most=16777216; not=0",
    "4 tail=1\n => 3; line=4; key=tail; found=tail=1; why=range; least=2; most=16777216",
    "5 tol=536870913\n => 3; line=5; key=tol; found=tol=536870913; why=range; least=1; most=536870912",
    "8 start=-536870913\n => 3; line=8; key=start; found=start=-536870913; why=range; least=-536870912; most=536870912; quantity=2",
    "7 radius=999999999\n => 3; line=7; key=radius; found=radius=999999999; why=range; least=0; most=536870912; quantity=1",
    "10 terms=33\n => 3; line=10; key=terms; found=terms=33; why=range; least=0; most=32",
    "11 to=3\n => 3; line=11; key=to; found=to=3; why=range; least=1; most=2; term=1",
    "16 coef=268435457\n => 3; line=16; key=coef; found=coef=268435457; why=range; least=-268435456; most=268435456; term=2",
    "13 first=3\n => 3; line=13; key=first; found=first=3; why=range; least=0; most=2; term=1",
    "17 first=0\n => 3; line=18; key=second; found=second=2; why=range; least=0; most=0; term=2",
];

/// The sheet and its explanation.
fn bad_sheet(bad: &str) -> (String, String) {
    let (edit, explained) = bad.split_once(" => ").unwrap();
    let (line, replacement) = edit.split_once(' ').unwrap();
    let (refusal, lines) = explained.split_once("; ").unwrap();
    let sheet = with_line(TWO, line.parse().unwrap(), replacement);
    let lines = lines.replace("; ", "\n");
    (sheet, format!("result={refusal}\nat=0\n{lines}\n"))
}

#[test]
fn the_line_at_fault() {
    for bad in BAD {
        let (sheet, expected) = bad_sheet(bad);
        assert_eq!(explanation(sheet.as_bytes()), expected);
    }
}

#[test]
fn a_missing_reading() {
    let expected = "result=4\nat=0\nline=8\nkey=start\nfound=start=none\nwhy=reading\nquantity=2\n";
    let sheet = with_line(TWO, 8, "start=none\n");
    assert_eq!(explanation(sheet.as_bytes()), expected);
}

/// `none` without a line feed is misspelt before it is no reading.
#[test]
fn the_line_feed_is_asked_before_the_reading() {
    let above = first_lines(TWO.as_bytes(), 5);
    let sheet = [&above[..], b"start=none"].concat();
    let expected = "result=2\nat=0\nline=6\nkey=start\nfound=start=none\nwhy=unended\nquantity=1\n";
    assert_eq!(explanation(&sheet), expected);
}

#[test]
fn the_first_fault_from_the_top() {
    let range_above = with_line(&with_line(TWO, 6, "start=none\n"), 2, "steps=0\n");
    let expected =
        "result=3\nat=0\nline=2\nkey=steps\nfound=steps=0\nwhy=range\nleast=1\nmost=240\n";
    assert_eq!(explanation(range_above.as_bytes()), expected);
}

#[test]
fn an_empty_sheet() {
    let expected = "result=2\nat=0\nline=1\nkey=n\nfound=\nwhy=missing\n";
    assert_eq!(explanation(b""), expected);
}

#[test]
fn a_sheet_that_is_too_long() {
    let expected = "result=1\nat=0\nmost=4096\n";
    let bytes = |count| explanation(&vec![b'n'; count]);
    assert_eq!(bytes(4097), expected);
    assert_eq!(bytes(5000), expected);
    let shown = "n".repeat(60);
    let expected = format!("result=2\nat=0\nline=1\nkey=n\nfound={shown}...\nwhy=key\n");
    assert_eq!(bytes(4096), expected);
}

#[test]
fn nothing_more_is_said_of_an_accepted_sheet() {
    assert_eq!(explanation(TWO.as_bytes()), "result=0\nat=0\n");
}
