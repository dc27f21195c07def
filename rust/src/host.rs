//! What a host asks beside the calls: is a name plain, what does a rule text ask of the tables, how many rows are
//! used.

use crate::sys;

/// Is the client id, or the user name, plain: without `+`, `#` and `/`, and not begun by `$`? Others widen
/// rules: `bench/%c/#` filled with the id `+` is `bench/+/#`. The empty text is plain.
///
/// It doesn't look for `%`. `%c` is filled first, then `%u` in what came of it: the id `%u` with the name `g8`
/// makes `bench/g8/#` of `bench/%c/#`. Refuse ids with `%` too where rules have `%c`.
pub fn plain_name(name: &[u8]) -> bool {
    sys::plain_name(name)
}

/// How many templates, topics with `%c` or `%u`, a rule text has. A line that is no rule has none.
///
/// [`Store::connected`](crate::Store::connected) adds at most `filters` filter rows, `eqs` eq rows and `filters`
/// notes, whoever the client is. So F is `filters` times the clients that are in at once. E is `eqs` times the
/// pairs of id and name that came since the store was opened, every one: eq rows never leave. N is `filters` times
/// the sessions that have not ended, if each has one id and name, or `filters` where one number serves all. None
/// of them is below 1.
#[derive(Clone, Copy, Debug, PartialEq, Eq, Hash)]
#[non_exhaustive]
pub struct Templates {
    /// Those that are filters.
    pub filters: u64,
    /// Those under `eq`.
    pub eqs: u64,
}

/// The templates of a rule text.
pub fn templates(rules: &[u8]) -> Templates {
    Templates { filters: sys::filter_templates(rules) as u64, eqs: sys::eq_templates(rules) as u64 }
}

/// The rows of each table of a store that are used: [`Store::used_rows`](crate::Store::used_rows).
#[derive(Clone, Copy, Debug, PartialEq, Eq, Hash)]
#[non_exhaustive]
pub struct Rows {
    /// Filter rows, of F.
    pub filters: u64,
    /// Eq rows, of E.
    pub eqs: u64,
    /// Notes, of N.
    pub notes: u64,
}

impl Rows {
    /// Each count has 16 bits of the number; the largest number says that the store is not as laid out.
    pub(crate) fn of(number: u64) -> Option<Rows> {
        if number == u64::MAX {
            return None;
        }
        let (filters, eqs) = (number % 65_536, number / 65_536 % 65_536);
        Some(Rows { filters, eqs, notes: number / 4_294_967_296 })
    }
}
