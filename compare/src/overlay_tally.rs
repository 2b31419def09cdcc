//! What the asking of two tables shows.

use std::fmt::{self, Display};

use ragansils::{Level, Phase};
use ragansils_model::{word, Table, SUCCESS};

use crate::case::{phase_of, Call, Case, Outcome};
use crate::layout::{FORM, FORMS};
use crate::overlaid::{asked_of, astray, is_held, Astray, BAD_TABLE, FLAG_SET, KEY_ABSENT};
use crate::tags;
use crate::two_tables::{NEWER, OLDER};

/// The largest capacity of the tables that are asked.
pub const LARGEST_CAPACITY: u64 = 8;

/// Six of each table, where both grow or shrink.
const MOST_BUCKETS: u64 = 12;

const NAMES: [u64; 2] = [NEWER, OLDER];

/// How a table was made.
#[derive(Clone, Copy, Debug, PartialEq, Eq, PartialOrd, Ord)]
pub enum Made {
    Sound(Phase),
    /// An update that was cut while its flag is set.
    CutUpdate,
    /// A change that was cut, with flag 0.
    OtherCut,
    Damaged,
    /// Words that no history made.
    NoTable,
    Empty,
    Short,
}

impl Made {
    pub const ALL: [Made; 9] = [
        Made::Sound(Phase::AtRest),
        Made::Sound(Phase::Growing),
        Made::Sound(Phase::Shrinking),
        Made::CutUpdate,
        Made::OtherCut,
        Made::Damaged,
        Made::NoTable,
        Made::Empty,
        Made::Short,
    ];

    /// What a table that was made so may do with a lookup.
    pub fn ways(self) -> &'static [Way] {
        match self {
            Made::Sound(_) | Made::OtherCut => &[Way::LooksUp],
            Made::CutUpdate => &[Way::Refuses(FLAG_SET)],
            Made::Damaged | Made::NoTable => &[Way::LooksUp, Way::Refuses(BAD_TABLE), Way::Refuses(FLAG_SET)],
            Made::Empty | Made::Short => &[Way::Refuses(BAD_TABLE)],
        }
    }
}

impl Display for Made {
    fn fmt(&self, out: &mut fmt::Formatter) -> fmt::Result {
        match self {
            Made::Sound(phase) => write!(out, "{phase}"),
            Made::CutUpdate => out.write_str("cut update"),
            Made::OtherCut => out.write_str("other cut"),
            Made::Damaged => out.write_str("damaged"),
            Made::NoTable => out.write_str("no table"),
            Made::Empty => out.write_str("empty"),
            Made::Short => out.write_str("short"),
        }
    }
}

/// What a table does with every lookup.
#[derive(Clone, Copy, Debug, PartialEq, Eq)]
pub enum Way {
    LooksUp,
    Refuses(u64),
}

/// What the asking of two tables for one key shows. It may show several.
#[derive(Clone, Copy, Debug, PartialEq, Eq, PartialOrd, Ord)]
pub enum Kind {
    Pair {
        newer: Made,
        older: Made,
        number: u64,
        name: u64,
    },
    /// In which table, in which phase of it and in which level.
    Found {
        name: u64,
        phase: Phase,
        level: Level,
    },
    Buckets(u64),
    /// Both hold the key.
    Hidden {
        forms: [u64; 2],
    },
    /// A table has the key where no lookup finds it.
    Astray {
        name: u64,
        astray: Astray,
    },
    /// A table has token words that are damaged so.
    Tags {
        name: u64,
        kind: tags::Kind,
    },
    /// The forms of both, with the number.
    Forms {
        forms: [u64; 2],
        number: u64,
    },
    Capacity {
        name: u64,
        c: u64,
    },
    /// Whether the newer one's capacity is below the older one's, the same, or above.
    OtherCapacity(std::cmp::Ordering),
    Twice {
        number: u64,
    },
    /// Two sound tables beside their plain maps.
    BesideMaps {
        phases: [Phase; 2],
        number: u64,
        name: u64,
    },
    /// A hidden key that a call changed in the older table, by the phases of both.
    Changed {
        call: &'static str,
        phases: [Phase; 2],
    },
}

impl Kind {
    /// What it is one of, for print.
    pub fn group(&self) -> String {
        match self {
            Kind::Pair { newer, .. } => format!("two tables, the newer {newer}"),
            Kind::Found { name, .. } => format!("found in the {}", table_name(*name)),
            Kind::Buckets(_) => "buckets looked at".to_string(),
            Kind::Hidden { .. } => "hidden keys by both forms".to_string(),
            Kind::Astray { name, .. } => {
                format!("keys that a lookup of the {} passes over", table_name(*name))
            }
            Kind::Tags { name, .. } => format!("damaged token words of the {}", table_name(*name)),
            Kind::Forms { .. } => "answers by both forms".to_string(),
            Kind::Capacity { name, .. } => format!("capacity of the {}", table_name(*name)),
            Kind::OtherCapacity(_) => "capacity of the newer beside that of the older".to_string(),
            Kind::Twice { .. } => "one table lent twice".to_string(),
            Kind::BesideMaps { .. } => "two sound tables beside their maps".to_string(),
            Kind::Changed { .. } => "hidden keys changed in the older".to_string(),
        }
    }
}

fn table_name(name: u64) -> &'static str {
    if name == NEWER {
        "newer"
    } else {
        "older"
    }
}

/// A number, and the table that it is of.
struct Answer(u64, u64);

impl Display for Answer {
    fn fmt(&self, out: &mut fmt::Formatter) -> fmt::Result {
        write!(out, "{} {}", self.0, table_name(self.1))
    }
}

impl Display for Kind {
    fn fmt(&self, out: &mut fmt::Formatter) -> fmt::Result {
        match self {
            Kind::Pair { older, number, name, .. } => write!(out, "over {older} {}", Answer(*number, *name)),
            Kind::Found { phase, level, .. } => write!(out, "{phase}, {level}"),
            Kind::Buckets(count) => write!(out, "{count}"),
            Kind::Hidden { forms: [newer, older] } => write!(out, "{newer} over {older}"),
            Kind::Astray { astray, .. } => write!(out, "{astray}"),
            Kind::Tags { kind, .. } => write!(out, "{kind}"),
            Kind::Forms { forms: [newer, older], number } => write!(out, "{newer} over {older} {number}"),
            Kind::Capacity { c, .. } => write!(out, "{c}"),
            Kind::OtherCapacity(order) => write!(out, "{order:?}"),
            Kind::Twice { number } => write!(out, "{number}"),
            Kind::BesideMaps { phases: [newer, older], number, name } => {
                write!(out, "{newer} over {older} {}", Answer(*number, *name))
            }
            Kind::Changed { call, phases: [newer, older] } => write!(out, "{call} {newer} over {older}"),
        }
    }
}

/// What the answer to one key shows; how the tables were made is told by `Kind::Pair`, which comes from elsewhere.
pub fn kinds(case: &Case, outcome: &Outcome, level: Option<Level>) -> Vec<Kind> {
    let (key, tables) = match asked_of(case) {
        Some(asked) => asked,
        None => return vec![],
    };
    let (number, name, buckets) = (outcome.number, outcome.answer[0], outcome.answer[1]);
    let mut kinds = vec![];
    if let Call::AskTwice { .. } = case.call {
        kinds.push(Kind::Twice { number });
    } else if ![BAD_TABLE, FLAG_SET].contains(&number) {
        kinds.extend(kinds_of_lookups(tables, key, number));
    }
    let phase = tables.get(name as usize).and_then(|table| phase_of(table));
    kinds.extend(level.zip(phase).map(|(level, phase)| Kind::Found { name, phase, level }));
    kinds.extend((buckets > 0).then_some(Kind::Buckets(buckets)));
    kinds
}

/// Of two tables with good headers.
fn kinds_of_lookups(tables: [&[u64]; 2], key: u64, number: u64) -> Vec<Kind> {
    let forms = tables.map(|table| table[FORM]);
    let capacities = tables.map(|table| table[word::CAPACITY]);
    let mut kinds = vec![
        Kind::Forms { forms, number },
        Kind::OtherCapacity(capacities[0].cmp(&capacities[1])),
        Kind::Capacity { name: NEWER, c: capacities[0] },
        Kind::Capacity { name: OLDER, c: capacities[1] },
    ];
    if tables.into_iter().all(|table| is_held(table, key)) {
        kinds.push(Kind::Hidden { forms });
    }
    for (name, table) in NAMES.into_iter().zip(tables) {
        kinds.extend(astray(table, key).into_iter().map(|astray| Kind::Astray { name, astray }));
    }
    kinds
}

/// Of two tables that are both looked up in.
pub fn kinds_of_tags(tables: [&[u64]; 2]) -> Vec<Kind> {
    let of_table =
        |(name, table)| tags::kinds_in(table).into_iter().map(move |kind| Kind::Tags { name, kind });
    NAMES.into_iter().zip(tables).flat_map(of_table).collect()
}

/// All that a run can meet.
pub fn possible() -> Vec<Kind> {
    let mut possible = possible_pairs();
    possible.extend((1..=MOST_BUCKETS).map(Kind::Buckets));
    possible.extend([SUCCESS, BAD_TABLE, FLAG_SET, KEY_ABSENT].map(|number| Kind::Twice { number }));
    use std::cmp::Ordering::{Equal, Greater, Less};
    possible.extend([Less, Equal, Greater].map(Kind::OtherCapacity));
    for name in NAMES {
        possible.extend(Astray::ALL.map(|astray| Kind::Astray { name, astray }));
        possible.extend(tags::KINDS.map(|kind| Kind::Tags { name, kind }));
        possible.extend((1..=LARGEST_CAPACITY).map(|c| Kind::Capacity { name, c }));
        for (phase, level) in Phase::ALL.into_iter().flat_map(|phase| Level::ALL.map(|level| (phase, level)))
        {
            if (phase, level) != (Phase::AtRest, Level::Interim) {
                possible.push(Kind::Found { name, phase, level });
            }
        }
    }
    for forms in FORMS.into_iter().flat_map(|newer| FORMS.map(|older| [newer, older])) {
        possible.push(Kind::Hidden { forms });
        possible.extend([SUCCESS, KEY_ABSENT].map(|number| Kind::Forms { forms, number }));
    }
    for phases in Phase::ALL.into_iter().flat_map(|newer| Phase::ALL.map(|older| [newer, older])) {
        possible.extend(LOOKED_UP.map(|(number, name)| Kind::BesideMaps { phases, number, name }));
        possible.extend(["insert", "update", "delete"].map(|call| Kind::Changed { call, phases }));
    }
    possible
}

/// What is answered where both tables are looked up in.
const LOOKED_UP: [(u64, u64); 3] = [(SUCCESS, NEWER), (SUCCESS, OLDER), (KEY_ABSENT, OLDER)];

/// Every pair of tables with every answer that it may have: a refusal of the newer comes first.
fn possible_pairs() -> Vec<Kind> {
    let mut possible = vec![];
    for (newer, older) in Made::ALL.into_iter().flat_map(|newer| Made::ALL.map(|older| (newer, older))) {
        let mut answers = vec![];
        for (above, below) in
            newer.ways().iter().flat_map(|above| older.ways().iter().map(move |below| (above, below)))
        {
            match (above, below) {
                (Way::Refuses(number), _) => answers.push((*number, NEWER)),
                (Way::LooksUp, Way::Refuses(number)) => answers.push((*number, OLDER)),
                (Way::LooksUp, Way::LooksUp) => answers.extend(LOOKED_UP),
            }
        }
        answers.sort_unstable();
        answers.dedup();
        possible.extend(answers.into_iter().map(|(number, name)| Kind::Pair { newer, older, number, name }));
    }
    possible
}

/// What a table does with every lookup.
pub fn way_of(words: &[u64]) -> Way {
    match Table::read(words) {
        Err(_) => Way::Refuses(BAD_TABLE),
        Ok(table) if table.word(word::FLAG) != 0 => Way::Refuses(FLAG_SET),
        Ok(_) => Way::LooksUp,
    }
}

#[cfg(test)]
mod tests {
    use super::*;
    use crate::case::run_model;
    use crate::overlaid::check;
    use crate::test_table::table_of;

    fn kinds_of(call: Call, newer: &[u64], older: &[u64]) -> Vec<Kind> {
        let case = Case { call, table: newer.to_vec(), list: older.to_vec() };
        let outcome = run_model(&case);
        kinds(&case, &outcome, check(&case, &outcome).unwrap())
    }

    #[test]
    fn each_answer_has_its_kinds() {
        let (newer, older) = (table_of(&[[1, 10, 20]]), table_of(&[[1, 11, 21], [5, 50, 60]]));
        let hidden = kinds_of(Call::Ask { key: 1 }, &newer, &older);
        let found = Kind::Found { name: NEWER, phase: Phase::AtRest, level: Level::Top };
        for kind in
            [found, Kind::Hidden { forms: [1, 1] }, Kind::Buckets(1), Kind::Capacity { name: OLDER, c: 2 }]
        {
            assert!(hidden.contains(&kind), "{kind:?}");
        }
        let mut deleted = newer.clone();
        deleted[35] = 0;
        let below = kinds_of(Call::Ask { key: 1 }, &deleted, &older);
        assert!(below.contains(&Kind::Astray { name: NEWER, astray: Astray::FreeSlot }));
        assert!(!below.iter().any(|kind| matches!(kind, Kind::Hidden { .. })));
        assert_eq!(kinds_of(Call::Ask { key: 1 }, &newer, &[]), []);
        assert_eq!(kinds_of(Call::AskTwice { key: 1 }, &newer, &[])[0], Kind::Twice { number: 0 });
    }

    #[test]
    fn a_refusal_of_the_newer_comes_first() {
        let answers = |newer, older| {
            let of_pair = |kind: Kind| match kind {
                Kind::Pair { newer: above, older: below, number, name }
                    if (above, below) == (newer, older) =>
                {
                    Some((number, name))
                }
                _ => None,
            };
            possible().into_iter().filter_map(of_pair).collect::<Vec<_>>()
        };
        let at_rest = Made::Sound(Phase::AtRest);
        assert_eq!(answers(Made::Empty, Made::CutUpdate), [(1, NEWER)]);
        assert_eq!(answers(at_rest, Made::CutUpdate), [(3, OLDER)]);
        assert_eq!(answers(at_rest, Made::OtherCut), LOOKED_UP);
        assert_eq!(answers(Made::Damaged, Made::Damaged).len(), 7);
    }

    #[test]
    fn a_table_looks_up_or_refuses() {
        let mut table = table_of(&[]);
        assert_eq!((way_of(&table), way_of(&[])), (Way::LooksUp, Way::Refuses(BAD_TABLE)));
        table[word::FLAG] = 2;
        assert_eq!(way_of(&table), Way::Refuses(FLAG_SET));
    }
}
