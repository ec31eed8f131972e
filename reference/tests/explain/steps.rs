//! A passage that is refused at a step: the quantities that are too large, the ratio and the longest step, the radii that
//! are too wide.

use reference::answer::{Summary, run};
use reference::explain::explanation;
use reference::sheet::MOST_PLACES;

/// Quantities 1 and 3 are too large with their radii, from the start; quantity 2 is just not.
#[test]
fn every_quantity_that_is_too_large() {
    let sheet = "n=3\nsteps=1\nstep=1\ntail=2\ntol=1\nstart=536870912\nradius=1\nstart=-536870911\nradius=1\n\
        start=-536870912\nradius=536870912\nterms=0\n";
    let expected = "result=6\nat=1\n\
        quantity=1\nvalue=536870912\nradius=1\nsize=536870913\nmost=536870912\n\
        quantity=3\nvalue=-536870912\nradius=536870912\nsize=1073741824\nmost=536870912\n";
    assert_eq!(explanation(sheet.as_bytes()), expected);
}

/// A quantity that rises by one half at each step, from one half below the limit: after step 1 it is at the limit, and
/// with its radius beyond it.
#[test]
fn a_quantity_that_has_become_too_large() {
    let sheet = "n=1\nsteps=9\nstep=8388608\ntail=2\ntol=1000\nstart=528482304\nradius=0\n\
        terms=1\nto=1\ncoef=16777216\nfirst=0\nsecond=0\n";
    let text = explanation(sheet.as_bytes());
    let mut rows = vec![0; MOST_PLACES];
    let Summary { result, at, .. } = run(sheet.as_bytes(), &mut rows);
    assert_eq!((result, at), (6, 2));
    let (value, radius) = (rows[1], rows[2]);
    assert!(value == 536870912 && radius > 0);
    let size = value + radius;
    let expected = format!(
        "result=6\nat=2\nquantity=1\nvalue={value}\nradius={radius}\nsize={size}\nmost=536870912\n"
    );
    assert_eq!(text, expected);
}

/// Quantities 2 and 3 have the fastest rate, three for each 1 of time where the sizes are 2.
#[test]
fn a_step_that_is_too_long() {
    let sheet = "n=3\nsteps=1\nstep=-4194304\ntail=2\ntol=1000\nstart=33554432\nradius=0\nstart=0\nradius=0\n\
        start=0\nradius=0\nterms=3\nto=1\ncoef=16777216\nfirst=1\nsecond=0\nto=3\ncoef=25165824\nfirst=1\nsecond=1\n\
        to=2\ncoef=-50331648\nfirst=3\nsecond=0\n";
    let expected = "result=7\nat=1\nratio=12582912\nmost=8388608\nscale=33554432\nquantity=2\nlongest=2796202\n";
    assert_eq!(explanation(sheet.as_bytes()), expected);
}

/// Without terms a step leaves the radii as they are. Quantities 1 and 3 are wider than the sheet allows.
#[test]
fn every_radius_that_is_too_large() {
    let sheet = "n=3\nsteps=1\nstep=1\ntail=2\ntol=5\nstart=0\nradius=6\nstart=0\nradius=5\nstart=0\nradius=7\n\
        terms=0\n";
    let expected = "result=8\nat=1\nquantity=1\nradius=6\nbefore=6\nmost=5\n\
        quantity=3\nradius=7\nbefore=7\nmost=5\n";
    assert_eq!(explanation(sheet.as_bytes()), expected);
}

/// The radius of case A, which its `tol` does not allow.
#[test]
fn a_radius_that_has_become_too_large() {
    let sheet = "n=1\nsteps=1\nstep=4194304\ntail=349526\ntol=349533\nstart=16777216\nradius=0\n\
        terms=1\nto=1\ncoef=16777216\nfirst=1\nsecond=1\n";
    let expected = "result=8\nat=1\nquantity=1\nradius=349534\nbefore=0\nmost=349533\n";
    assert_eq!(explanation(sheet.as_bytes()), expected);
}
