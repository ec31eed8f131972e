//! Random stored sheets through the conversion, and where it is linked through the proved planner's too: each kind of
//! conversion and both sides of each edge are met by hundreds, forward and back. The two parts of a long sheet have, row
//! by row, what its passage has when all of its steps are taken at once, and the same outcome.

use reference::compare::{Converted, both_converted};
use reference::conversion::{Conversion, FIRST_STEPS};
use reference::generate::conversion::{StoredTrial, StoredTrials, places_needed};
use reference::passage::{Refused, carry, run};
use reference::sheet::{Refusal, Sheet, read, read_stored};
use std::collections::BTreeMap;
use std::sync::mpsc;
use std::thread;

const COUNT: usize = 27_000;
const LEAST: usize = 200;

/// A passage's rows, and its outcome.
type Run = (Vec<i64>, Result<(), Refused>);

/// All steps of a sheet that is read, however many.
fn all_steps(sheet: &Sheet) -> Run {
    let mut rows = vec![0; sheet.places()];
    let outcome = carry(sheet, &mut rows);
    rows.truncate(written(sheet, outcome) * sheet.row_places());
    (rows, outcome)
}

fn written(sheet: &Sheet, outcome: Result<(), Refused>) -> usize {
    outcome.map_or_else(
        |refused| refused.at.saturating_sub(1),
        |()| sheet.steps as usize,
    )
}

/// The two parts as passages of their own, one after the other, the second one's steps counted on.
fn both_parts([first, second]: &[Sheet; 2]) -> Run {
    let places = first.places();
    let mut rows = vec![0; places + second.places()];
    assert_eq!(run(first, &mut rows[..places]), Ok(()));
    let outcome = run(second, &mut rows[places..]);
    rows.truncate(places + written(second, outcome) * second.row_places());
    let counted_on = |Refused { refusal, at }| Refused {
        refusal,
        at: at + FIRST_STEPS as usize,
    };
    (rows, outcome.map_err(counted_on))
}

/// What the stored sheets of one direction met, by name.
#[derive(Default)]
struct Met {
    met: BTreeMap<String, usize>,
}

impl Met {
    /// Counts a kind or an edge; one that is never met stands there with 0.
    fn count(&mut self, name: &str, met: bool) {
        *self.met.entry(name.to_string()).or_default() += usize::from(met);
    }

    fn meet(&mut self, trial: &StoredTrial, mark: i64) {
        let both = both_converted(trial, mark);
        let (conversion, converted) = both.unwrap_or_else(|differing| {
            let sheet = String::from_utf8_lossy(&trial.sheet);
            panic!("{sheet}\n{differing:?}");
        });
        let stored = read_stored(&trial.sheet);
        match &conversion {
            Conversion::Refused(refused) => self.meet_refused(trial, &stored, *refused),
            Conversion::Unaltered => self.meet_unaltered(trial, &stored.unwrap(), &converted),
            Conversion::Split(parts) => self.meet_split(&stored.unwrap(), parts, &converted),
        }
        self.meet_places(trial, &conversion, &converted, mark);
        self.meet_texts(&conversion, &converted);
    }

    /// Refused as a sheet, for its places, or by a step that its passage is refused by, too.
    fn meet_refused(
        &mut self,
        trial: &StoredTrial,
        stored: &Result<Sheet, Refusal>,
        refused: Refused,
    ) {
        let Refused { refusal, at } = refused;
        let number = refusal as usize;
        self.count(&format!("refused with {number}"), true);
        let stored = match stored {
            Ok(stored) => stored,
            Err(_) => {
                assert_eq!((Err(refusal), at), (stored.clone(), 0));
                let steps_401 =
                    trial.sheet.split(|&byte| byte == b'\n').nth(1) == Some(b"steps=401");
                self.count("401 steps", refusal == Refusal::OutOfRange && steps_401);
                return;
            }
        };
        assert!(stored.steps > FIRST_STEPS);
        if refusal == Refusal::BufferTooShort {
            assert_eq!(at, 0);
            return;
        }
        assert_eq!(all_steps(stored).1, Err(refused));
        self.count("refused at 1", at == 1);
        self.count(&format!("refused with {number} at 240"), at == 240);
        self.count("refused in between", (2..240).contains(&at));
        let after = refusal == Refusal::ValueTooLarge && at == 241;
        self.count("refused with 6 at 241", after);
        assert!(at <= 240 || after);
    }

    /// Unaltered, whatever the passage does.
    fn meet_unaltered(&mut self, trial: &StoredTrial, stored: &Sheet, converted: &Converted) {
        assert_eq!(converted.text(), trial.sheet);
        assert!(stored.steps <= FIRST_STEPS);
        self.count("unaltered", true);
        self.count("240 steps", stored.steps == 240);
        let outcome = all_steps(stored).1;
        self.count("unaltered, accepted", outcome.is_ok());
        for refusal in [
            Refusal::ValueTooLarge,
            Refusal::StepTooLong,
            Refusal::RadiusTooLarge,
        ] {
            let met = matches!(outcome, Err(refused) if refused.refusal == refusal);
            self.count(&format!("unaltered, refused with {}", refusal as u8), met);
        }
    }

    /// Two sheets, as printed, that have the long passage's rows and outcome.
    fn meet_split(&mut self, stored: &Sheet, parts: &[Sheet; 2], converted: &Converted) {
        let text = std::str::from_utf8(converted.text()).unwrap();
        let (first, second) = text.split_once("\n\n").unwrap();
        let printed = [format!("{first}\n"), second.to_string()];
        let printed = printed.map(|sheet| read(sheet.as_bytes()).unwrap());
        assert_eq!(&printed, parts);
        let together = both_parts(parts);
        assert_eq!(together, all_steps(stored));
        let (rows, outcome) = together;
        let places = parts[0].places();
        assert_eq!(converted.rows[..places], rows[..places]);
        self.count("two sheets", true);
        self.count("241 steps", stored.steps == 241);
        self.count("400 steps", stored.steps == 400);
        self.count("two sheets, accepted", outcome.is_ok());
        if let Err(Refused { refusal, at }) = outcome {
            let number = refusal as u8;
            self.count(&format!("the second refused with {number}"), true);
            self.count(
                &format!("the second refused with {number} at once"),
                is_at_once(refusal, at),
            );
        }
    }

    /// The places beyond the rows are as they were, and so are all where nothing is run.
    fn meet_places(
        &mut self,
        trial: &StoredTrial,
        conversion: &Conversion,
        converted: &Converted,
        mark: i64,
    ) {
        let width = read_stored(&trial.sheet).map_or(0, |sheet| sheet.row_places());
        let rows = match conversion {
            Conversion::Split(_) => FIRST_STEPS as usize,
            Conversion::Unaltered => 0,
            Conversion::Refused(refused) => refused.at.saturating_sub(1),
        };
        let (written, others) = converted.rows.split_at(rows * width);
        assert!(written.iter().all(|&place| place != mark));
        assert!(others.iter().all(|&place| place == mark));
        let needed = places_needed(&trial.sheet);
        let split = matches!(conversion, Conversion::Split(_));
        let unaltered = *conversion == Conversion::Unaltered;
        self.count(
            "two sheets, places just enough",
            split && trial.places == needed,
        );
        self.count(
            "two sheets, places to spare",
            split && trial.places > needed,
        );
        self.count("a place short", trial.places + 1 == needed);
        self.count("unaltered, no places", unaltered && trial.places == 0);
        self.count("unaltered, some places", unaltered && trial.places > 0);
    }

    /// How the text stood to the bytes lent for it.
    fn meet_texts(&mut self, conversion: &Conversion, converted: &Converted) {
        let (length, lent) = (converted.lent.length, converted.lent.held.len());
        self.count("bytes just enough", lent == length);
        self.count("a byte short", lent + 1 == length);
        self.count("no bytes", lent == 0);
        self.count("bytes to spare", lent > length);
        let cut = (1..length).contains(&lent);
        match conversion {
            Conversion::Split(_) => {
                let text = String::from_utf8_lossy(converted.text());
                let empty_line = text.find("\n\n").unwrap() + 1;
                self.count("cut in the first sheet", cut && lent <= empty_line);
                self.count("cut in the second sheet", cut && lent > empty_line);
            }
            Conversion::Unaltered => self.count("cut in a sheet unaltered", cut),
            Conversion::Refused(_) => self.count("cut in a refusal", cut),
        }
    }
}

/// Whether the second part is refused as soon as it may be: 6 is asked of its start before, and comes a step later.
fn is_at_once(refusal: Refusal, at: usize) -> bool {
    at == 241 + usize::from(refusal == Refusal::ValueTooLarge)
}

/// What is to be met by hundreds besides what is counted with 0.
const NAMES: [&str; 21] = [
    "refused with 1",
    "refused with 2",
    "refused with 3",
    "refused with 4",
    "refused with 5",
    "refused with 6",
    "refused with 7",
    "refused with 8",
    "refused with 6 at 240",
    "refused with 7 at 240",
    "refused with 8 at 240",
    "refused with 6 at 241",
    "refused at 1",
    "refused in between",
    "401 steps",
    "unaltered",
    "two sheets",
    "two sheets, accepted",
    "the second refused with 6",
    "the second refused with 7",
    "the second refused with 8",
];

fn is_hindcast(sheet: &[u8]) -> bool {
    let mut lines = sheet.split(|&byte| byte == b'\n');
    lines.any(|line| line.starts_with(b"step=-"))
}

/// Looks at each trial while later ones are made, on a thread of their own: that takes about as long.
fn look_at_each(
    trials: impl Iterator<Item = StoredTrial> + Send,
    look: impl FnMut((StoredTrial, i64)),
) {
    let (sender, receiver) = mpsc::sync_channel(100);
    thread::scope(|scope| {
        // Where a trial is not as it should be, nobody receives the others.
        scope.spawn(move || trials.map_while(|trial| sender.send(trial).ok()).count());
        receiver.into_iter().zip(1..).for_each(look);
    });
}

#[test]
fn every_kind_of_conversion_and_every_edge_is_met_by_hundreds_of_each_direction() {
    let (mut forecasts, mut hindcasts) = (Met::default(), Met::default());
    look_at_each(StoredTrials::from_seed(1).take(COUNT), |(trial, mark)| {
        let met = if is_hindcast(&trial.sheet) {
            &mut hindcasts
        } else {
            &mut forecasts
        };
        met.meet(&trial, i64::MIN + mark);
    });
    for (name, count) in &forecasts.met {
        println!("{name}: {count} forward, {} back", hindcasts.met[name]);
    }
    for met in [forecasts.met, hindcasts.met] {
        for name in NAMES {
            assert!(met.contains_key(name), "{name}");
        }
        for (name, count) in met {
            assert!(count >= LEAST, "{name}: {count}");
        }
    }
}

#[test]
fn a_seed_always_gives_the_same_stored_sheets() {
    let some = |seed| {
        let trials = StoredTrials::from_seed(seed).take(50);
        trials.collect::<Vec<StoredTrial>>()
    };
    assert_eq!(some(7), some(7));
    assert_ne!(some(7), some(8));
}
