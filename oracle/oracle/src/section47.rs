//! Which topic names a filter takes, written from the sentences of section 4.7 of OASIS MQTT alone, on whole
//! texts. It decides in per-client matching where a level of the checked text begins with `$` (document 02,
//! b). A rule is cited by its number in 3.1.1, and behind a bar by that of 5.0 where it is another.

/// Does the filter, a valid one, take the name? One that starts with a wildcard takes no name that begins
/// with `$` [MQTT-4.7.2-1]. A `#` is the filter's last character, alone or behind a `/` [MQTT-4.7.1-2 |
/// MQTT-4.7.1-1]: alone it takes every other name, behind a `/` the parent level and all that is below it.
/// A text that is no topic name is read as one: wildcards in it are characters as others.
pub fn takes(filter: &str, name: &str) -> bool {
    if filter.starts_with(['+', '#']) && name.starts_with('$') {
        return false;
    }
    match filter.strip_suffix("/#") {
        Some(parent) => takes_without_hash(parent, beginning(name, parent)),
        None => filter == "#" || takes_without_hash(filter, name),
    }
}

/// As many levels of the name as the parent has; the whole name if it has fewer.
fn beginning<'a>(name: &'a str, parent: &str) -> &'a str {
    let separators = parent.matches('/').count();
    name.match_indices('/').nth(separators).map_or(name, |(at, _)| &name[..at])
}

/// The same for a filter without `#`. A `+` is a whole level and takes exactly one of the name, all up to the
/// next `/` [MQTT-4.7.1-3 | MQTT-4.7.1-2]. What stands before, between and behind the `+` stands in the name
/// too, character for character [MQTT-4.7.3-4].
fn takes_without_hash(filter: &str, name: &str) -> bool {
    let mut pieces = filter.split('+');
    let mut rest = pieces.next().and_then(|first| name.strip_prefix(first));
    for piece in pieces {
        rest = rest.and_then(|rest| rest.trim_start_matches(|c| c != '/').strip_prefix(piece));
    }
    rest == Some("")
}
