//! The index of the deciding rule, which the plugin writes to its log for
//! subscribe and publish. With `--check` it is held against the number that
//! `Machine` finds.

use std::cell::Cell;
use std::sync::OnceLock;

thread_local! { static LAST: Cell<Option<usize>> = const { Cell::new(None) }; }
static READER: OnceLock<Reader> = OnceLock::new();

struct Reader;

impl log::Log for Reader {
    fn enabled(&self, metadata: &log::Metadata) -> bool {
        metadata.level() == log::Level::Debug && metadata.target().starts_with("rmqtt_acl")
    }

    fn log(&self, record: &log::Record) {
        if self.enabled(record.metadata()) {
            if let Some(index) = index(&record.args().to_string()) {
                LAST.set(Some(index));
            }
        }
    }

    fn flush(&self) {}
}

/// `id ClientSubscribeCheckAcl, 3, is_match ok: ..` gives 3.
fn index(line: &str) -> Option<usize> {
    let rest = ["id ClientSubscribeCheckAcl, ", "id MessagePublishCheckAcl, "]
        .iter()
        .find_map(|p| line.strip_prefix(p))?;
    let (index, tail) = rest.split_once(',')?;
    tail.starts_with(" is_match ok").then(|| index.parse().ok())?
}

pub fn start() {
    let reader = READER.get_or_init(|| Reader);
    if log::set_logger(reader).is_ok() {
        log::set_max_level(log::LevelFilter::Debug);
    }
}

pub fn started() -> bool {
    READER.get().is_some()
}

pub fn take() -> Option<usize> {
    LAST.take()
}
