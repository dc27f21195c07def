//! E: a history on both, step by step. After each event the rows and notes of the store are held
//! against the plugin's; a question's answer against the hook's.

use oracle::events::{Event, History, Judge, Step, Tables};
use oracle::questions::{Reply, Runtime};

use crate::store::Store;
use crate::tally::Tally;

/// What is right for a step.
#[derive(Clone, Copy, Debug)]
pub enum Judged {
    /// An event has changed a table of the plugin, or none.
    Done(bool),
    /// An event is refused by this number, and not run on the plugin.
    Refused(u32),
    Answer(Reply),
}

impl Judged {
    fn number(self) -> u32 {
        match self {
            Judged::Done(_) => 0,
            Judged::Refused(number) => number,
            Judged::Answer(reply) => reply.number(),
        }
    }
}

/// Both sides, and what they have come to.
struct Both<'a> {
    history: &'a History,
    runtime: &'a Runtime,
    text: Vec<u8>,
    judge: Judge,
    store: Store,
}

impl<'a> Both<'a> {
    fn new(history: &'a History, runtime: &'a Runtime) -> Both<'a> {
        let oracle::events::Room { bytes, filters, eqs, notes } = history.room;
        let mut store = Store::of(port::Counts { bytes, filters, eqs, notes });
        let text = history.list.text();
        assert_eq!(store.open(&text), 0, "every line is a rule");
        Both { history, runtime, text, judge: Judge::new(&history.list, runtime), store }
    }

    /// The judge's answer, the port's, and whether the store is as it is meant to be.
    fn step(&mut self, step: &Step) -> (Judged, u32, bool) {
        match step {
            Step::Event(event) => self.event(event),
            Step::Ask(asked) => {
                let judged = Judged::Answer(self.judge.ask(asked, self.runtime));
                (judged, self.store.ask(asked, self.history.list.disconnect), true)
            }
        }
    }

    fn event(&mut self, event: &Event) -> (Judged, u32, bool) {
        let number = self.judge.refusal(event, self.history.room, self.runtime);
        let before = self.store.bytes.clone();
        let earlier = self.store.tables();
        let port = self.store.event(event);
        if number != 0 {
            return (Judged::Refused(number), port, self.store.bytes == before);
        }
        let judged = Judged::Done(self.judge.run(event, self.runtime));
        let rows = self.store.tables();
        let as_meant = self.store.bytes == self.store.laid_out(&self.text, &rows)
            && rows.clone().sorted() == *self.judge.now()
            && in_order(&earlier, &rows);
        (judged, port, as_meant)
    }
}

/// The rows that stay come first, in the order that they had.
fn in_order(earlier: &Tables, rows: &Tables) -> bool {
    fn stay<Row: PartialEq>(earlier: &[Row], rows: &[Row]) -> bool {
        let stay: Vec<&Row> = earlier.iter().filter(|row| rows.contains(row)).collect();
        rows.len() >= stay.len() && rows.iter().zip(stay).all(|(row, same)| row == same)
    }
    stay(&earlier.filters, &rows.filters)
        && stay(&earlier.eqs, &rows.eqs)
        && stay(&earlier.notes, &rows.notes)
}

/// Runs the history up to its first difference: the place of that step, and both answers.
fn play(
    history: &History,
    runtime: &Runtime,
    mut each: impl FnMut(&Step, Judged, bool),
) -> Option<(usize, String)> {
    let mut both = Both::new(history, runtime);
    for (place, step) in history.steps.iter().enumerate() {
        let (judged, port, as_meant) = both.step(step);
        let differs = judged.number() != port || !as_meant;
        each(step, judged, differs);
        if differs {
            let mut said =
                format!("  judged: {judged:?}; the judge answers {}, the port {port}", judged.number());
            if !as_meant {
                said += &format!("\n  the plugin holds {}", both.judge.now());
                said += &format!("\n  the store holds {}; or another byte differs", both.store.tables());
            }
            return Some((place, said));
        }
    }
    None
}

/// The history without the steps and rules that its difference doesn't need, and what is said of it.
pub fn reduced(history: &History, runtime: &Runtime) -> Option<(History, String)> {
    let mut history = history.clone();
    let (place, mut said) = play(&history, runtime, |_, _, _| ())?;
    history.steps.truncate(place + 1);
    let mut at = 0;
    while at < history.steps.len() + history.list.lines.len() {
        let mut fewer = history.clone();
        match at.checked_sub(history.list.lines.len()) {
            Some(step) => drop(fewer.steps.remove(step)),
            None => drop(fewer.list.lines.remove(at)),
        }
        match play(&fewer, runtime, |_, _, _| ()) {
            Some((place, why)) => {
                fewer.steps.truncate(place + 1);
                (history, said) = (fewer, why);
            }
            None => at += 1,
        }
    }
    Some((history, said))
}

/// E. What follows a difference isn't compared.
pub fn compare_history(history: &History, runtime: &Runtime, tally: &mut Tally) {
    play(history, runtime, |step, judged, differs| {
        tally.count_step(step, judged, differs, || reduced(history, runtime));
    });
}
