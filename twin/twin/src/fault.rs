//! The twin, and the ways in which it can be made wrong on purpose.

/// One mistake each; the comment says what the mistaken twin does.
#[derive(Clone, Copy, PartialEq, Eq, Debug)]
pub enum Fault {
    /// EMPTY is placed at the second look, which is its answer.
    EmptyAtSecondLook,
    /// FULL is placed at its answer.
    FullAtAnswer,
    /// A swap compares values and not whole words.
    ValuesCompared,
    /// A push swaps k in stage 4 and the neighbour in stage 5.
    KCounterFirst,
    /// A push at the wall is FULL only if MAX orders are held.
    FullByCount,
    /// A hint is cut to 16 bits and then compared.
    HintNarrowed,
    /// The party number is looked at before operation and fields.
    ElevenAfterThree,
    /// A worn counter is 9 also where the words differ.
    LostSwapNine,
    /// A second look that differs goes to stage 1.
    StageThreeBack,
    /// FULL and EMPTY are placed at the party's last entry, refused or not.
    RefusedEntryCounted,
    /// A refusal carries the order last carried, or about to be.
    CarriedKept,
    /// Any version is taken.
    VersionNotCompared,
    /// A pop swaps the neighbour in stage 4 and k in stage 5.
    NeighbourFirstInPop,
    /// A party's last eight bytes may be anything.
    SpareBytesUnchecked,
    /// The hint is compared in every stage.
    HintAlwaysCompared,
    /// An idle record that is not all zero is 6 and not 4.
    DirtyIdleIsSix,
    /// A lost attempt keeps k and both words.
    ReturnKeepsWords,
    /// A schedule file is cut after 2,048 entries.
    LongFileCut,
    /// Find starts from the other end.
    FindFromFarEnd,
    /// Measure counts value 2 as an order.
    ReservedIsOrder,
    /// Reading and writing a whole image check the first record alone.
    FirstRecordChecked,
    /// Reading a whole image fills the strip before the records are checked.
    StripBeforeCheck,
    /// Writing a whole image leaves the last party's last eight bytes as they were.
    SpareBytesLeft,
    /// No call on a lent record carries the popped order.
    PoppedOrderDropped,
    /// A call on a table stores what comes of the named record in the first's place.
    FirstRecordStored,
    /// A call on a table checks every record.
    EveryRecordChecked,
    /// A table may have no records, or more than 16.
    AnyTableLength,
    /// A record lent alone is left as it was.
    LentRecordKept,
}

pub const FAULTS: [(Fault, &str); 28] = [
    (Fault::EmptyAtSecondLook, "empty-at-second-look"),
    (Fault::FullAtAnswer, "full-at-answer"),
    (Fault::ValuesCompared, "values-compared"),
    (Fault::KCounterFirst, "k-counter-first"),
    (Fault::FullByCount, "full-by-count"),
    (Fault::HintNarrowed, "hint-narrowed"),
    (Fault::ElevenAfterThree, "eleven-after-three"),
    (Fault::LostSwapNine, "lost-swap-nine"),
    (Fault::StageThreeBack, "stage-three-back"),
    (Fault::RefusedEntryCounted, "refused-entry-counted"),
    (Fault::CarriedKept, "carried-kept"),
    (Fault::VersionNotCompared, "version-not-compared"),
    (Fault::NeighbourFirstInPop, "neighbour-first-in-pop"),
    (Fault::SpareBytesUnchecked, "spare-bytes-unchecked"),
    (Fault::HintAlwaysCompared, "hint-always-compared"),
    (Fault::DirtyIdleIsSix, "dirty-idle-is-six"),
    (Fault::ReturnKeepsWords, "return-keeps-words"),
    (Fault::LongFileCut, "long-file-cut"),
    (Fault::FindFromFarEnd, "find-from-far-end"),
    (Fault::ReservedIsOrder, "reserved-is-order"),
    (Fault::FirstRecordChecked, "first-record-checked"),
    (Fault::StripBeforeCheck, "strip-before-check"),
    (Fault::SpareBytesLeft, "spare-bytes-left"),
    (Fault::PoppedOrderDropped, "popped-order-dropped"),
    (Fault::FirstRecordStored, "first-record-stored"),
    (Fault::EveryRecordChecked, "every-record-checked"),
    (Fault::AnyTableLength, "any-table-length"),
    (Fault::LentRecordKept, "lent-record-kept"),
];

impl Fault {
    pub fn by_name(name: &str) -> Option<Fault> {
        FAULTS.iter().find(|pair| pair.1 == name).map(|pair| pair.0)
    }
}

/// All calls of the document are methods of this.
#[derive(Clone, Copy, PartialEq, Eq, Debug)]
pub struct Twin {
    fault: Option<Fault>,
}

impl Twin {
    /// The twin as the document has it.
    pub fn faithful() -> Twin {
        Twin { fault: None }
    }

    pub fn wrong(fault: Fault) -> Twin {
        Twin { fault: Some(fault) }
    }

    /// The twin that a program's arguments ask for: none, or `--fault NAME`.
    pub fn from_arguments(arguments: &[String]) -> Option<Twin> {
        match arguments {
            [] => Some(Twin::faithful()),
            [flag, name] if flag == "--fault" => Fault::by_name(name).map(Twin::wrong),
            _ => None,
        }
    }

    /// The twin that this program was asked for; says how to ask if it was not.
    pub fn of_program(name: &str) -> Twin {
        let arguments: Vec<String> = std::env::args().skip(1).collect();
        Twin::from_arguments(&arguments).unwrap_or_else(|| {
            eprintln!("use: {} [--fault NAME], with NAME one of", name);
            for (_, fault) in FAULTS {
                eprintln!("  {}", fault);
            }
            std::process::exit(2);
        })
    }

    pub fn has(self, fault: Fault) -> bool {
        self.fault == Some(fault)
    }
}
