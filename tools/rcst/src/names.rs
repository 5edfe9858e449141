//! Settings by name (`--names FILE`): people read and write `filter.softness 0.35`
//! and not `40 1051931443`. Without the option keys and values are numbers.
//!
//! Which keys are known, and which values a kind admits, the library's calls by name
//! decide, with the table that the file makes; here words become keys and values,
//! and these words.

use std::fs;
use std::path::Path;

use rcst::naming::{self, Viewer};
use rcst::number::KEY_UNKNOWN;
use rcst::settings::{self, Kind};

use crate::fault::{told, Fault};
use crate::line;
use crate::rows::Cell;
use crate::store;

/// The settings that a text file names, or none, and keys are numbers.
pub struct Names(Option<Known>);

struct Known {
    /// As the library is lent it.
    table: Vec<u32>,
    settings: Vec<Named>,
}

struct Named {
    key: u32,
    name: String,
    kind: Kind,
}

impl Known {
    fn of(text: &str) -> Result<Known, settings::Fault> {
        let mut table = vec![0; 4 * text.lines().count()];
        let count = settings::table(text, &mut table)?;
        table.truncate(4 * count);
        let named = |setting: settings::Setting| Named {
            key: setting.row[0],
            name: setting.name.into(),
            kind: setting.kind,
        };
        let settings = settings::settings(text).map(named).collect();
        Ok(Known { table, settings })
    }
}

impl Names {
    pub fn of(path: Option<&Path>) -> Result<Names, Fault> {
        let Some(path) = path else {
            return Ok(Names(None));
        };
        let text = fs::read_to_string(path);
        let text = text.map_err(|error| Fault::no_input(path, told(&error)))?;
        let wrong = |settings::Fault { line, what }| {
            Fault::data(format!("{}: line {line}: {what}", path.display()))
        };
        Ok(Names(Some(Known::of(&text).map_err(wrong)?)))
    }

    pub fn none() -> Names {
        Names(None)
    }

    fn named(&self, key: u32) -> Option<&Named> {
        let settings = &self.0.as_ref()?.settings;
        settings.iter().find(|setting| setting.key == key)
    }

    fn kind(&self, key: u32) -> Option<Kind> {
        self.named(key).map(|setting| setting.kind)
    }

    /// The key that a word means: a name, or a number.
    pub fn key(&self, word: &str) -> Result<u32, Fault> {
        let settings = self.0.iter().flat_map(|known| &known.settings);
        let mut named = settings.filter(|setting| setting.name == word);
        if let Some(setting) = named.next() {
            return Ok(setting.key);
        }
        match (line::number(word), &self.0) {
            (Ok(key), _) => self.known(key).map(|()| key),
            (Err(fault), None) => Err(fault),
            (Err(_), Some(_)) => Err(Fault::number(word, KEY_UNKNOWN)),
        }
    }

    /// 17 for a key that the file does not name, on reading too. The library gives it
    /// before it looks at a store, so none is lent.
    pub fn known(&self, key: u32) -> Result<(), Fault> {
        let Some(Known { table, .. }) = &self.0 else {
            return Ok(());
        };
        match Viewer::unasked(&[], 0, table).value(key) {
            (KEY_UNKNOWN, ..) => Err(Fault::number(format!("key {key}"), KEY_UNKNOWN)),
            _ => Ok(()),
        }
    }

    /// The value of a key at a version.
    pub fn lookup(&self, store: &[u8], key: u32, version: u32) -> Result<Option<u32>, u32> {
        let (number, found, value) = match &self.0 {
            None => rcst::lookup(store, key, version),
            Some(known) => Viewer::unasked(store, version, &known.table).value(key),
        };
        match number {
            0 => Ok(found.then_some(value)),
            refused => Err(refused),
        }
    }

    /// Keys and values from low to high at a version: all of them, or a refusal.
    pub fn range(
        &self,
        store: &[u8],
        low: u32,
        high: u32,
        version: u32,
    ) -> Result<Vec<(u32, u32)>, u32> {
        match &self.0 {
            None => store::range(store, low, high, version),
            Some(known) => store::viewed(Viewer::unasked(store, version, &known.table), low, high),
        }
    }

    /// The first key from low to high that the file does not name, in words.
    pub fn unknown(&self, store: &[u8], low: u32, high: u32, version: u32) -> Result<(), Fault> {
        let keys = store::range(store, low, high, version).unwrap_or_default();
        keys.iter().try_for_each(|(key, _)| self.known(*key))
    }

    pub fn shown_key(&self, key: u32) -> String {
        match self.named(key) {
            Some(setting) => setting.name.clone(),
            None => key.to_string(),
        }
    }

    pub fn shown(&self, key: u32, value: u32) -> String {
        match (self.kind(key), value) {
            (Some(Kind::Level), _) => f32::from_bits(value).to_string(),
            (Some(Kind::Switch), 0) => "off".into(),
            (Some(Kind::Switch), 1) => "on".into(),
            _ => value.to_string(),
        }
    }

    pub fn key_cell(&self, key: u32) -> Cell {
        match self.named(key) {
            Some(setting) => Cell::Text(setting.name.clone()),
            None => Cell::number(key),
        }
    }

    /// A value for other programs: text where it is no number to them.
    pub fn cell(&self, key: u32, value: u32) -> Cell {
        let shown = self.shown(key, value);
        match self.kind(key) {
            Some(Kind::Level) if !f32::from_bits(value).is_finite() => Cell::Text(shown),
            Some(Kind::Switch) if value <= 1 => Cell::Text(shown),
            _ => Cell::Number(shown),
        }
    }

    /// The value that a word means for a key.
    pub fn value(&self, key: u32, word: &str) -> Result<u32, Fault> {
        match (self.kind(key), word) {
            (Some(Kind::Switch), "on") => Ok(1),
            (Some(Kind::Switch), "off") => Ok(0),
            (Some(Kind::Level), _) => {
                let level = word.parse::<f32>().map(f32::to_bits);
                level.map_err(|_| Fault::usage(format!("{word}: not a level")))
            }
            _ => line::number(word),
        }
    }

    /// Inserts a setting: 17 and 16 come before the store's numbers.
    pub fn insert(&self, store: &mut [u8], key: u32, value: u32) -> u32 {
        match &self.0 {
            None => rcst::insert(store, key, value),
            Some(known) => naming::insert(store, &known.table, key, value),
        }
    }

    pub fn delete(&self, store: &mut [u8], key: u32) -> u32 {
        match &self.0 {
            None => rcst::delete(store, key),
            Some(known) => naming::delete(store, &known.table, key),
        }
    }
}
