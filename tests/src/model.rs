//! What a plan is: entries, nodes, and the rows of its contents.

/// Most nodes of a plan.
pub const MAX_NODES: usize = 32;
/// Most entries of a node.
pub const MAX_ENTRIES: usize = 64;
/// Most levels of a node.
pub const MAX_LEVELS: usize = 64;
/// Most remote sections an entry calls in a period.
pub const MAX_R: u8 = 15;
/// Largest period, and largest blocking.
pub const MAX_TICKS: u64 = 1_000_000_000;
/// Kind byte of a task.
pub const TASK: u8 = 1;
/// Kind byte of a global critical section.
pub const SECTION: u8 = 2;

/// The editions of the plan file.
#[derive(Clone, Copy, Debug, Default, PartialEq, Eq, Hash)]
pub enum Edition {
    /// Without release jitter.
    #[default]
    First,
    /// With the release jitter of each entry.
    Second,
}

impl Edition {
    /// Both editions.
    pub const BOTH: [Edition; 2] = [Edition::First, Edition::Second];

    /// Its number, by which a caller names it.
    pub fn number(self) -> u32 {
        match self {
            Edition::First => 1,
            Edition::Second => 2,
        }
    }

    /// The edition with this number, if there is one.
    pub fn numbered(number: u32) -> Option<Edition> {
        Edition::BOTH
            .into_iter()
            .find(|edition| edition.number() == number)
    }

    /// The other edition.
    pub fn other(self) -> Edition {
        match self {
            Edition::First => Edition::Second,
            Edition::Second => Edition::First,
        }
    }
}

/// A task or a global critical section.
///
/// The ticks have wide types, so that tests can try values far outside the
/// limits as well as near them.
#[derive(Clone, Copy, Debug, Default, PartialEq, Eq, Hash)]
pub struct Entry {
    /// Entry number.
    pub number: u16,
    /// 1 for a task, 2 for a global critical section.
    pub kind: u8,
    /// Remote sections called in a period.
    pub r: u8,
    /// Longest run.
    pub c: u64,
    /// Period.
    pub t: u64,
    /// Deadline.
    pub d: u64,
    /// Blocking.
    pub b: u64,
    /// Release jitter: how long after the start of its period it may begin.
    pub j: u64,
}

impl Entry {
    /// A task with the given C, T and D; r, B and J are 0.
    pub const fn task(number: u16, c: u64, t: u64, d: u64) -> Entry {
        Entry {
            number,
            kind: TASK,
            r: 0,
            c,
            t,
            d,
            b: 0,
            j: 0,
        }
    }

    /// The same entry with blocking `b`.
    pub const fn blocked(self, b: u64) -> Entry {
        Entry { b, ..self }
    }

    /// The same entry with `r` remote sections.
    pub const fn calling(self, r: u8) -> Entry {
        Entry { r, ..self }
    }

    /// The same entry with release jitter `j`.
    pub const fn jittered(self, j: u64) -> Entry {
        Entry { j, ..self }
    }
}

/// A node's line in the contents, without the offset of its body.
#[derive(Clone, Copy, Debug, Default, PartialEq, Eq, Hash)]
pub struct Row {
    /// Node number.
    pub number: u16,
    /// Level count.
    pub levels: u8,
    /// Entry count.
    pub entries: u8,
}

/// One controller with its entries, most urgent first.
#[derive(Clone, Debug, PartialEq, Eq)]
pub struct Node {
    /// Node number.
    pub number: u16,
    /// Level count.
    pub levels: u8,
    /// Entries, most urgent first.
    pub entries: Vec<Entry>,
}

impl Node {
    /// The node's row in the contents.
    pub fn row(&self) -> Row {
        let entries = u8::try_from(self.entries.len()).expect("a row counts at most 255 entries");
        Row {
            number: self.number,
            levels: self.levels,
            entries,
        }
    }
}

/// Nodes in the order of the contents, and the edition of their file.
#[derive(Clone, Debug, Default, PartialEq, Eq)]
pub struct Plan {
    /// The edition that it came in, in which it is written again.
    pub edition: Edition,
    /// The nodes.
    pub nodes: Vec<Node>,
}

impl Plan {
    /// A plan of the first edition.
    pub fn first(nodes: Vec<Node>) -> Plan {
        let edition = Edition::First;
        Plan { edition, nodes }
    }

    /// A plan of the second edition.
    pub fn second(nodes: Vec<Node>) -> Plan {
        let edition = Edition::Second;
        Plan { edition, nodes }
    }

    /// A plan of the first edition if every J is 0, else of the second.
    pub fn of(nodes: Vec<Node>) -> Plan {
        let plan = Plan::first(nodes);
        match plan.is_punctual() {
            true => plan,
            false => Plan::second(plan.nodes),
        }
    }

    /// Whether every J is 0.
    pub fn is_punctual(&self) -> bool {
        self.entries().iter().all(|entry| entry.j == 0)
    }

    /// The rows of the contents.
    pub fn rows(&self) -> Vec<Row> {
        self.nodes.iter().map(Node::row).collect()
    }

    /// All entries in one list, node after node.
    pub fn entries(&self) -> Vec<Entry> {
        self.nodes.iter().flat_map(|n| n.entries.clone()).collect()
    }

    /// The plan of these rows; `entries` must have as many entries as they
    /// count.
    pub fn from_parts(edition: Edition, rows: &[Row], entries: &[Entry]) -> Plan {
        let mut rest = entries.iter().copied();
        let nodes = rows
            .iter()
            .map(|row| Node {
                number: row.number,
                levels: row.levels,
                entries: rest.by_ref().take(usize::from(row.entries)).collect(),
            })
            .collect();
        Plan { edition, nodes }
    }
}
