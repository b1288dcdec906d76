//! Faults put into the model on purpose, one at a time, to see that the comparison catches each.

#[derive(Clone, Copy, Debug, PartialEq, Eq)]
pub enum Fault {
    None,
    /// Of two lines with the name the last counts.
    LastLine,
    /// MARKS is read on behind the first line with the name.
    ReadsOn,
    /// The file is looked for before the name in MARKS: 9 before 14.
    FileBeforeKnown,
    /// 13 before 1.
    PointBeforeName,
    /// MARKS is opened before it and the file are read.
    OpensFirst,
    /// The number of payloads for the record number at the end.
    PayloadsCounted,
    /// MARKS is opened with a rollover over the root.
    RollsOver,
    /// The line is appended, and not synced.
    Unsynced,
    LeadingZero,
    /// Bytes behind the line feed are passed over.
    TrailingBytes,
    /// A point name of 17 bytes.
    Seventeen,
    /// 9 for 15.
    LostUnknown,
    /// Of two slots with the id the highest is read.
    HighestSlot,
    /// A hole that crosses the number is given whole.
    HoleUncut,
    /// Behind a hole that was cut the reader stands where the hole ended.
    CutReaderPast,
    /// The record at the number is given.
    LimitLate,
    /// After all below the number was given the table is read once more.
    ReadsAtLimit,
}

pub const FAULTS: &[(&str, Fault)] = &[
    ("last-line", Fault::LastLine),
    ("reads-on", Fault::ReadsOn),
    ("file-before-known", Fault::FileBeforeKnown),
    ("point-before-name", Fault::PointBeforeName),
    ("opens-first", Fault::OpensFirst),
    ("payloads-counted", Fault::PayloadsCounted),
    ("rolls-over", Fault::RollsOver),
    ("unsynced", Fault::Unsynced),
    ("leading-zero", Fault::LeadingZero),
    ("trailing-bytes", Fault::TrailingBytes),
    ("seventeen", Fault::Seventeen),
    ("lost-unknown", Fault::LostUnknown),
    ("highest-slot", Fault::HighestSlot),
    ("hole-uncut", Fault::HoleUncut),
    ("cut-reader-past", Fault::CutReaderPast),
    ("limit-late", Fault::LimitLate),
    ("reads-at-limit", Fault::ReadsAtLimit),
];
