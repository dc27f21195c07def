//! What serde_json reads in a line, measured. Members that a later one of the
//! same name overrides count here; a `Value` has lost them.

use std::fmt;

use serde::de::{Deserialize, Deserializer, MapAccess, SeqAccess, Visitor};

#[derive(Clone, Copy, Debug, PartialEq, Eq)]
pub struct Reading {
    /// Brackets open at once.
    pub depth: usize,
    /// Is every number one that serde_json takes for a u64? It does so for plain
    /// digits up to 2^64-1, and never for a sign, a fraction or an exponent.
    pub plain: bool,
    /// Bytes of the longest decoded string, member names included.
    pub longest: usize,
}

const NOTHING: Reading = Reading { depth: 0, plain: true, longest: 0 };

impl Reading {
    fn and(self, other: Reading) -> Reading {
        Reading {
            depth: self.depth.max(other.depth),
            plain: self.plain && other.plain,
            longest: self.longest.max(other.longest),
        }
    }

    fn in_brackets(self) -> Reading {
        Reading { depth: self.depth + 1, ..self }
    }
}

impl<'de> Deserialize<'de> for Reading {
    fn deserialize<D: Deserializer<'de>>(deserializer: D) -> Result<Reading, D::Error> {
        deserializer.deserialize_any(Measure)
    }
}

struct Measure;

impl<'de> Visitor<'de> for Measure {
    type Value = Reading;

    fn expecting(&self, f: &mut fmt::Formatter<'_>) -> fmt::Result {
        f.write_str("any value")
    }

    fn visit_unit<E>(self) -> Result<Reading, E> {
        Ok(NOTHING)
    }

    fn visit_bool<E>(self, _: bool) -> Result<Reading, E> {
        Ok(NOTHING)
    }

    fn visit_u64<E>(self, _: u64) -> Result<Reading, E> {
        Ok(NOTHING)
    }

    fn visit_i64<E>(self, _: i64) -> Result<Reading, E> {
        Ok(Reading { plain: false, ..NOTHING })
    }

    fn visit_f64<E>(self, _: f64) -> Result<Reading, E> {
        Ok(Reading { plain: false, ..NOTHING })
    }

    fn visit_str<E>(self, text: &str) -> Result<Reading, E> {
        Ok(Reading { longest: text.len(), ..NOTHING })
    }

    fn visit_seq<A: SeqAccess<'de>>(self, mut array: A) -> Result<Reading, A::Error> {
        let mut all = NOTHING;
        while let Some(element) = array.next_element()? {
            all = all.and(element);
        }
        Ok(all.in_brackets())
    }

    fn visit_map<A: MapAccess<'de>>(self, mut object: A) -> Result<Reading, A::Error> {
        let mut all = NOTHING;
        while let Some((name, value)) = object.next_entry::<Reading, Reading>()? {
            all = all.and(name).and(value);
        }
        Ok(all.in_brackets())
    }
}
