//! Filters and matching, asked of the original; plain matching also of section 4.7.

use std::str::FromStr;

pub use rmqtt::topic::Topic;
use rmqtt::trie::TopicTree;
use rmqtt::types::ClientId;

use crate::section47;

pub type Tree = TopicTree<Option<ClientId>>;

/// A valid filter, parsed.
pub fn filter(text: &str) -> Option<Topic> {
    Topic::from_str(text).ok()
}

/// A checked text as `AclHandler::hook` hands it to a rule's tree: one that
/// isn't a valid filter has no levels.
pub fn checked(text: &str) -> Topic {
    Topic::from_str(text).unwrap_or_else(|_| Topic::from(Vec::new()))
}

/// The tree of a rule with this one filter.
pub fn tree(filter: &Topic) -> Tree {
    let mut tree = Tree::default();
    tree.insert(filter, None);
    tree
}

/// Does a level of the text begin with `$`? In per-client matching the Rust decides only where none does.
pub fn has_dollar(text: &str) -> bool {
    text.split('/').any(|level| level.starts_with('$'))
}

/// An answer that rests on plain matching, by the Rust's and by section 4.7's.
#[derive(Clone, Copy, Debug)]
pub struct Both<T> {
    pub rust: T,
    pub section47: T,
    /// A level of the checked text begins with `$`: section 4.7 decides, else the Rust.
    pub dollar: bool,
}

impl<T: Copy + PartialEq> Both<T> {
    pub fn answer(self) -> T {
        if self.dollar {
            self.section47
        } else {
            self.rust
        }
    }

    pub fn is_apart(self) -> bool {
        self.rust != self.section47
    }

    /// Section 4.7's answer is the Rust's where the Rust decides.
    pub fn is_sound(self) -> bool {
        self.dollar || !self.is_apart()
    }
}

/// The plain match of a filter; `dollar` is `has_dollar` of the text.
pub fn plain(filter: &str, topic: &Topic, text: &str, dollar: bool) -> Both<bool> {
    Both { rust: topic.matches_str(text), section47: section47::takes(filter, text), dollar }
}
