//! The fourteen mistakes that students make (docs/COMPARED.md), each of which
//! can be switched on in the expected answers. A count at its limit has two
//! sides and makes two of them. A comparison that is any good tells each of
//! them from the truth.

#[derive(Clone, Copy, PartialEq, Eq, Debug)]
pub enum Variant {
    UnscoredAsZero,
    Greedy,
    OneChildMore,
    OrderedTuples,
    StoppedAsExact,
    ManyAtLimit,
    ManyTimesNone,
    OnlyEditedRow,
    /// The number of `?` columns is still told.
    UnreadAsZero,
    EqualColumnsOnce,
    /// The leaf set is the union of all clusters, the unscored ones too.
    UnscoredCounted,
    /// A scored nought puts no taxa into the leaf set.
    NoughtLeftOut,
    /// A tree is drawn from the last row, whatever the leaf set is.
    LastRowTaken,
    /// After rescorings the leaf set is still that of the list as built.
    LeafSetBeforeRescoring,
}

pub const ALL: [Variant; 14] = [
    Variant::UnscoredAsZero,
    Variant::Greedy,
    Variant::OneChildMore,
    Variant::OrderedTuples,
    Variant::StoppedAsExact,
    Variant::ManyAtLimit,
    Variant::ManyTimesNone,
    Variant::OnlyEditedRow,
    Variant::UnreadAsZero,
    Variant::EqualColumnsOnce,
    Variant::UnscoredCounted,
    Variant::NoughtLeftOut,
    Variant::LastRowTaken,
    Variant::LeafSetBeforeRescoring,
];

impl Variant {
    pub fn name(self) -> &'static str {
        match self {
            Variant::UnscoredAsZero => "unscored-as-zero",
            Variant::Greedy => "greedy",
            Variant::OneChildMore => "one-child-more",
            Variant::OrderedTuples => "ordered-tuples",
            Variant::StoppedAsExact => "stopped-as-exact",
            Variant::ManyAtLimit => "many-at-limit",
            Variant::ManyTimesNone => "many-times-none",
            Variant::OnlyEditedRow => "only-edited-row",
            Variant::UnreadAsZero => "unread-as-zero",
            Variant::EqualColumnsOnce => "equal-columns-once",
            Variant::UnscoredCounted => "unscored-counted",
            Variant::NoughtLeftOut => "nought-left-out",
            Variant::LastRowTaken => "last-row-taken",
            Variant::LeafSetBeforeRescoring => "leaf-set-before-rescoring",
        }
    }

    /// Whether the mistake shows in the rows of a table. Those about the leaf
    /// set show only where something is drawn.
    pub fn is_in_rows(self) -> bool {
        !matches!(
            self,
            Variant::UnscoredCounted
                | Variant::NoughtLeftOut
                | Variant::LastRowTaken
                | Variant::LeafSetBeforeRescoring
        )
    }

    pub fn named(name: &str) -> Option<Variant> {
        ALL.into_iter().find(|v| v.name() == name)
    }
}

/// The rules in force: those of docs/RULES.md, or those with one mistake in.
#[derive(Clone, Copy, Default)]
pub struct Rules {
    pub variant: Option<Variant>,
}

impl Rules {
    pub const TRUE: Rules = Rules { variant: None };

    pub fn has(self, v: Variant) -> bool {
        self.variant == Some(v)
    }

    /// The most children that a member may have under degree bound `d`.
    pub fn most_children(self, d: u32) -> u32 {
        if self.has(Variant::OneChildMore) { d } else { d - 1 }
    }

    /// Whether a listed cluster may stand in a tree.
    pub fn usable(self, scored: bool) -> bool {
        scored || self.has(Variant::UnscoredAsZero)
    }

    /// Whether the taxa of a listed cluster are in the leaf set.
    pub fn in_leaf_set(self, scored: bool, weight: i32) -> bool {
        match self.variant {
            Some(Variant::UnscoredCounted) => true,
            Some(Variant::NoughtLeftOut) => scored && weight != 0,
            _ => self.usable(scored),
        }
    }
}
