//! Theorems that have a rule, and the rules that no function promises and no test runs, each with its reason.
use crate::numbers::{number, Number};

/// A rule, the file of the theorems, and their names. A theorem follows from the definitions: it adds nothing to what has to be believed.
pub type Law = (&'static str, &'static str, &'static [&'static str]);

pub const LAWS: &[Law] = &[
    ("1.3", "cells/proofs/Packing", &["cell-packed"]),
    (
        "1.16",
        "mfm/proofs/RoundTrip",
        &["decoded-encoded", "calls-round-trip"],
    ),
    ("1.17", "worked_examples/proofs/Table", &["table-holds"]),
    ("1.20", "mfm/proofs/ByTable", &["by-table"]),
    ("2.4", "worked_examples/proofs/Table", &["table-holds"]),
    ("3.13", "worked_examples/proofs/Table", &["table-holds"]),
    ("3.16", "separator/proofs/Border", &["limits"]),
    ("3.18", "worked_examples/proofs/Table", &["table-holds"]),
    ("4.8", "separation/proofs/Recovery", &["all-in-range"]),
    (
        "4.12",
        "separation/proofs/Witness",
        &["met", "met-drifting", "met-shaking"],
    ),
    ("4.14", "separation/proofs/Witness", &["ends"]),
    ("4.16", "separation/proofs/FirstFigures", &["at-50-and-250"]),
    ("5.3", "histogram/proofs/Counts", &["counts-sum"]),
    (
        "6.5",
        "sector_records/proofs/Places",
        &["sectors-ordered", "sector-of-mark", "mark-of-sector"],
    ),
    (
        "6.9",
        "sector_records/proofs/Places",
        &["data-least", "data-none"],
    ),
    ("6.12", "sector_records/proofs/MarkBytes", &["has-data"]),
    (
        "6.14",
        "sector_records/proofs/MarkBytes",
        &["end-without-data", "end-with-data"],
    ),
    ("6.14", "sector_records/proofs/Places", &["data-end-below"]),
    (
        "6.22",
        "sector_records/proofs/MarkBytes",
        &["single-id", "single-data"],
    ),
    ("7.4", "finding_list/proofs/Laws", &["tnf-only"]),
    (
        "7.31",
        "finding_list/proofs/Laws",
        &["stands-exactly", "empty-means-none", "kinds-in-range"],
    ),
    ("7.32", "finding_list/proofs/Laws", &["strictly-ordered"]),
    (
        "7.47",
        "finding_list/proofs/SingleDensity",
        &["no-nsi", "no-nsd"],
    ),
    ("11.7", "listing/proofs/Laws", &["never-five"]),
    (
        "11.9",
        "listing/proofs/Laws",
        &["whole-in-room", "front-in-room"],
    ),
    (
        "11.10",
        "listing/proofs/Examples",
        &[
            "lines-of-findings",
            "listing-80",
            "standard-header",
            "zero-cells",
        ],
    ),
    (
        "12.19",
        "revolution_portions/proofs/Laws",
        &["left-exactly"],
    ),
    (
        "12.21",
        "block_cells/proofs/Examples",
        &["met", "recovered"],
    ),
    (
        "12.22",
        "supercard_pro/proofs/Laws",
        &["as-whole-call", "all-portions"],
    ),
    (
        "12.24",
        "reader_as_number/proofs/ByNumbers",
        &["read_back", "number-back", "calls-by-numbers"],
    ),
    ("13.6", "file_listing/proofs/Laws", &["never-ten"]),
    (
        "14.3",
        "two_reads/proofs/Laws",
        &["equal-reads", "no-finding-means-equal"],
    ),
    ("15.1", "sector_image/proofs/Laws", &["part-read-out"]),
    ("16.19", "disk_laws/proofs/Once", &["each-once"]),
    ("16.20", "disk_laws/proofs/Library", &["never-amiss"]),
    ("16.21", "disk_laws/proofs/Order", &["ordered"]),
    ("16.22", "disk_laws/proofs/LastLine", &["last_line"]),
    ("17.4", "track_writer/proofs/PlainLists", &["as-encoded"]),
    (
        "17.11",
        "standard_track/proofs/Theorems",
        &["no-findings", "only-ext"],
    ),
    ("17.12", "standard_track/proofs/Theorems", &["any-data"]),
    (
        "17.13",
        "standard_track/proofs/Theorems",
        &["chosen-check", "sbd-exactly"],
    ),
    ("17.14", "standard_track/proofs/Theorems", &["reads-back"]),
    ("18.16", "conversion_laws/proofs/Theorems", &["converts"]),
    ("18.17", "conversion_laws/proofs/Theorems", &["as_before"]),
    ("16.25", "disk_page/proofs/Parts", &["parts-are-page"]),
];

/// A rule that no function promises, or, where it is only run, that no test names; and why.
pub const EXCEPTIONS: &[(&str, &str)] = &[
    (
        "1.17",
        "an example: a theorem of the definitions, for no code",
    ),
    (
        "2.4",
        "an example: a theorem of the definitions, for no code",
    ),
    (
        "3.13",
        "an example: a theorem of the definitions, for no code",
    ),
    (
        "3.18",
        "an example: a theorem of the definitions, for no code",
    ),
    (
        "13.3",
        "run by `not_listed` of tests/comparison, which does not name it",
    ),
    (
        "13.12",
        "tells users what the system does with packets; nothing tries it",
    ),
    ("16.19", "a theorem of the definitions, for no code"),
    ("16.20", "a theorem of the definitions, for no code"),
    ("16.21", "a theorem of the definitions, for no code"),
    ("16.22", "a theorem of the definitions, for no code"),
    ("17.10", "a theorem of the definitions, for no code"),
    ("17.11", "a theorem of the definitions, for no code"),
    ("17.12", "a theorem of the definitions, for no code"),
    ("17.13", "a theorem of the definitions, for no code"),
    ("17.14", "a theorem of the definitions, for no code"),
    ("18.15", "what was: only the theorems on it need it"),
    ("18.16", "a theorem of the definitions, for no code"),
    ("18.17", "a theorem of the definitions, for no code"),
];

pub fn parsed(rule: &str) -> Number {
    number(rule).expect("a rule's number")
}

pub fn laws(rule: Number) -> Vec<&'static Law> {
    LAWS.iter().filter(|law| parsed(law.0) == rule).collect()
}

pub fn exception(rule: Number) -> Option<&'static str> {
    EXCEPTIONS
        .iter()
        .find(|(excepted, _)| parsed(excepted) == rule)
        .map(|(_, why)| *why)
}
