//! What the fields of a component may be.

use crate::component::{Component, Kind, MOST_COLOURS};

pub const MOST_CAPACITY: u8 = 63;

/// A field that breaks its rule.
#[derive(Clone, Copy, PartialEq, Eq, Debug)]
pub enum WrongField {
    /// A used port, 0 to 2 for A to C, is not below M.
    Port(usize),
    /// A port that the kind does not use is not 0.
    UnusedPort(usize),
    /// The entry of a colour is not below C.
    MapEntry(Map, usize),
    /// The entry of a colour from C on is not 0.
    MapEntryBeyond(Map, usize),
    /// The entry of a colour is not 0 in a map that the kind does not use.
    UnusedMap(Map, usize),
    /// The mask names a colour from C on.
    MaskBeyond(usize),
    /// A source's mask names no colour.
    EmitsNothing,
    UnusedMask,
    /// Not 1 to 63.
    Capacity,
    /// Above the capacity.
    Filling,
    /// Not below C.
    FillColour,
    /// Not 0 where the filling is 0.
    FillColourOfNone,
    UnusedCapacity,
    UnusedFilling,
    UnusedFillColour,
}

#[derive(Clone, Copy, PartialEq, Eq, Debug)]
pub enum Map {
    First,
    Second,
}

impl Component {
    /// Whether every field is as its kind, the colours and the channels allow.
    pub fn is_good(&self, colours: usize, channels: usize) -> bool {
        self.wrong_field(colours, channels).is_none()
    }

    /// The first field, in the record's order, that is not so.
    pub fn wrong_field(&self, colours: usize, channels: usize) -> Option<WrongField> {
        self.wrong_port(channels)
            .or_else(|| self.wrong_map(Map::First, self.kind.uses_first_map(), colours))
            .or_else(|| self.wrong_map(Map::Second, self.kind.uses_second_map(), colours))
            .or_else(|| self.wrong_mask(colours))
            .or_else(|| self.wrong_filling(colours))
    }

    pub fn map(&self, map: Map) -> &[u8; MOST_COLOURS] {
        match map {
            Map::First => &self.first_map,
            Map::Second => &self.second_map,
        }
    }

    /// A used port is below M; an unused one is 0.
    fn wrong_port(&self, channels: usize) -> Option<WrongField> {
        let count = self.kind.input_count() + self.kind.output_count();
        let (used, unused) = self.ports.split_at(count);
        let past = |&port: &u8| usize::from(port) >= channels;
        let wrong = used.iter().position(past).map(WrongField::Port);
        wrong.or_else(|| {
            let port = unused.iter().position(|&port| port != 0)?;
            Some(WrongField::UnusedPort(count + port))
        })
    }

    /// Entries are below C; entries for colours from C on are 0; an unused map is all 0.
    fn wrong_map(&self, map: Map, used: bool, colours: usize) -> Option<WrongField> {
        let other_than_0 = |entries: &[u8]| entries.iter().position(|&entry| entry != 0);
        if !used {
            let colour = other_than_0(self.map(map))?;
            return Some(WrongField::UnusedMap(map, colour));
        }
        let (entries, rest) = self.map(map).split_at(colours);
        let past = |&entry: &u8| usize::from(entry) >= colours;
        if let Some(colour) = entries.iter().position(past) {
            return Some(WrongField::MapEntry(map, colour));
        }
        let beyond = other_than_0(rest)?;
        Some(WrongField::MapEntryBeyond(map, colours + beyond))
    }

    /// Bits for colours from C on are 0; a source emits at least one colour; an unused mask is 0.
    fn wrong_mask(&self, colours: usize) -> Option<WrongField> {
        if !self.kind.uses_mask() {
            return (self.mask != 0).then_some(WrongField::UnusedMask);
        }
        if let Some(colour) = (colours..MOST_COLOURS).find(|&colour| self.mask_names(colour)) {
            return Some(WrongField::MaskBeyond(colour));
        }
        let emits_nothing = self.kind == Kind::Source && self.mask == 0;
        emits_nothing.then_some(WrongField::EmitsNothing)
    }

    /// Capacity 1..63, filling 0..capacity; the fill colour is below C, and 0 where the filling is
    /// 0. All three are 0 in what is no queue.
    fn wrong_filling(&self, colours: usize) -> Option<WrongField> {
        if self.kind != Kind::Queue {
            return first_broken([
                (self.capacity == 0, WrongField::UnusedCapacity),
                (self.filling == 0, WrongField::UnusedFilling),
                (self.fill_colour == 0, WrongField::UnusedFillColour),
            ]);
        }
        first_broken([
            (
                (1..=MOST_CAPACITY).contains(&self.capacity),
                WrongField::Capacity,
            ),
            (self.filling <= self.capacity, WrongField::Filling),
            (
                usize::from(self.fill_colour) < colours,
                WrongField::FillColour,
            ),
            (
                self.filling > 0 || self.fill_colour == 0,
                WrongField::FillColourOfNone,
            ),
        ])
    }
}

/// Rules in a row, each with what is wrong where it does not hold.
fn first_broken<const COUNT: usize>(rules: [(bool, WrongField); COUNT]) -> Option<WrongField> {
    let broken = rules.into_iter().find(|(holds, _)| !holds);
    broken.map(|(_, wrong)| wrong)
}
