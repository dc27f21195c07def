//! Filters and matching, and what is asked of one line: a document, a rule, whom the rule means.

use crate::answers::{self, Identity, Refusal};
use crate::store::Client;
use crate::sys;

/// Is the text a valid filter? `+` and `#` only as whole levels, `#` only as the last; the empty text is
/// valid.
pub fn valid_filter(text: &[u8]) -> bool {
    sys::valid_filter(text)
}

/// Tree match T, the plugin's: does the filter take the checked text?
pub fn tree_match(filter: &[u8], text: &[u8]) -> bool {
    sys::tree_match(filter, text)
}

/// Plain match P, the per-client rules': does the filter take the checked text? It is T, but for a checked text that isn't a
/// valid filter: P splits it as any other.
pub fn plain_match(filter: &[u8], text: &[u8]) -> bool {
    sys::plain_match(filter, text)
}

/// Is the line, without its LF, one of document 01's JSON documents?
pub fn is_document(line: &[u8]) -> bool {
    sys::is_document(line)
}

/// And one whose decoded strings, member names included, have at most this many bytes?
pub fn is_document_within(line: &[u8], most: usize) -> bool {
    sys::is_document_within(line, most)
}

/// Is the line a plugin rule? Refused by 1, 5 or 6.
pub fn check_rule(line: &[u8]) -> Result<(), Refusal> {
    answers::done(sys::rule_refusal(line))
}

/// Do the users that the line's rule lists agree with the client?
pub fn identity(line: &[u8], client: Client<'_>, protocol: Option<u8>) -> Identity {
    answers::identity(sys::identity(line, client, protocol))
}
