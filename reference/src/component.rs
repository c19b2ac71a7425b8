//! A component: its kind, its ports and the other fields of its record.

/// How many colours there are at most, so the length of a map.
pub const MOST_COLOURS: usize = 8;

#[derive(Clone, Copy, PartialEq, Eq, Debug)]
pub enum Kind {
    Source,
    Sink,
    Queue,
    Function,
    Fork,
    Join,
    Switch,
    Merge,
}

impl Kind {
    /// Each kind at the place of its number.
    pub const ALL: [Kind; 8] = [
        Kind::Source,
        Kind::Sink,
        Kind::Queue,
        Kind::Function,
        Kind::Fork,
        Kind::Join,
        Kind::Switch,
        Kind::Merge,
    ];

    pub fn name(self) -> &'static str {
        match self {
            Kind::Source => "source",
            Kind::Sink => "sink",
            Kind::Queue => "queue",
            Kind::Function => "function",
            Kind::Fork => "fork",
            Kind::Join => "join",
            Kind::Switch => "switch",
            Kind::Merge => "merge",
        }
    }

    /// The input ports come first: A, or A and B.
    pub fn input_count(self) -> usize {
        match self {
            Kind::Source => 0,
            Kind::Sink | Kind::Queue | Kind::Function | Kind::Fork | Kind::Switch => 1,
            Kind::Join | Kind::Merge => 2,
        }
    }

    /// The output ports follow the input ports.
    pub fn output_count(self) -> usize {
        match self {
            Kind::Sink => 0,
            Kind::Source | Kind::Queue | Kind::Function | Kind::Join | Kind::Merge => 1,
            Kind::Fork | Kind::Switch => 2,
        }
    }

    pub fn uses_first_map(self) -> bool {
        matches!(self, Kind::Function | Kind::Fork | Kind::Join)
    }

    pub fn uses_second_map(self) -> bool {
        self == Kind::Fork
    }

    pub fn uses_mask(self) -> bool {
        matches!(self, Kind::Source | Kind::Switch)
    }
}

#[derive(Clone, Copy, Debug)]
pub struct Component {
    pub kind: Kind,
    /// A, B and C.
    pub ports: [u8; 3],
    pub first_map: [u8; MOST_COLOURS],
    pub second_map: [u8; MOST_COLOURS],
    /// Colour 0 is the highest bit.
    pub mask: u8,
    pub capacity: u8,
    pub filling: u8,
    pub fill_colour: u8,
}

impl Component {
    /// A component with its ports set and all other fields 0.
    pub fn new(kind: Kind, ports: [u8; 3]) -> Component {
        Component {
            kind,
            ports,
            first_map: [0; MOST_COLOURS],
            second_map: [0; MOST_COLOURS],
            mask: 0,
            capacity: 0,
            filling: 0,
            fill_colour: 0,
        }
    }

    pub fn inputs(&self) -> &[u8] {
        &self.ports[..self.kind.input_count()]
    }

    pub fn outputs(&self) -> &[u8] {
        let first = self.kind.input_count();
        &self.ports[first..first + self.kind.output_count()]
    }

    /// Whether a source emits the colour, or a switch sends it to B.
    pub fn mask_names(&self, colour: usize) -> bool {
        0x80 >> colour & u32::from(self.mask) != 0
    }
}
