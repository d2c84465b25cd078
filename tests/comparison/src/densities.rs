//! The calls on a track and on timings in each density: the library's exports, the crate's types over them, and the second program's own.

use second_program::findings::{self, Finding};
use second_program::refusal::Refusal;
use second_program::sectors::{self, ReadOut, SectorRecord};
use second_program::separator::{self, SeparatorState};
use second_program::single_density;
use thikbromu::boundary::{self, FindingRecord};
use thikbromu::{separate, separate_in_density, Density, Sector, Separation, Separator, Track};

/// What a call of the crate answers.
type Answer<T> = Result<T, thikbromu::Refusal>;

/// The calls of one density.
pub struct Calls {
    pub sector: fn(&[u8], usize, u32, u32, usize, &mut [u32]) -> Answer<usize>,
    pub read_out: fn(&[u8], usize, u32, u32, usize, &mut [u8], &mut u32) -> Answer<usize>,
    pub findings: fn(&[u8], usize, u32, u32, &mut [u32]) -> Answer<usize>,
    pub finding_records: fn(&[u8], usize, u32, u32, &mut [FindingRecord]) -> Answer<usize>,
    pub step: fn(&mut i32, u32, &mut i32) -> Answer<usize>,
    pub separate: fn(&[u32], &mut [u8], &mut usize) -> Answer<usize>,

    pub sector_of_track: fn(Track, usize) -> Answer<Sector>,
    pub read_out_of_track: fn(Track, usize, &mut [u8]) -> Answer<thikbromu::ReadOut>,
    pub findings_of_track: fn(Track) -> Answer<Vec<thikbromu::Finding>>,
    pub separator: fn(i32) -> Separator,
    pub separation: fn(&[u32], &mut [u8]) -> Answer<Separation>,

    /// Those of the second program take the drive's track and side first.
    pub second_sectors: fn(u32, u32, &[u8], usize) -> Result<Vec<SectorRecord>, Refusal>,
    pub second_sector: fn(u32, u32, &[u8], usize, usize) -> Result<(SectorRecord, usize), Refusal>,
    pub second_read_out: fn(u32, u32, &[u8], usize, usize, usize) -> Result<ReadOut, Refusal>,
    pub second_findings: fn(u32, u32, &[u8], usize, usize) -> Result<Vec<Finding>, Refusal>,
    /// The residual afterwards, and the cells and the offset of the step.
    pub second_step: fn(i64, u32) -> (i64, Result<(i64, i64), Refusal>),
    pub second_separate: fn(&[u32], usize) -> Result<separator::Separation, Refusal>,
}

/// Double density, which the crate's types take where none is named.
pub const DOUBLE: Calls = Calls {
    sector: boundary::sector,
    read_out: boundary::read_out,
    findings: boundary::findings,
    finding_records: boundary::finding_records,
    step: boundary::step,
    separate: boundary::separate,
    sector_of_track: |track, index| track.sector(index),
    read_out_of_track: |track, index, buffer| track.read_out(index, buffer),
    findings_of_track: |track| track.findings(),
    separator: Separator::with_residual,
    separation: separate,
    second_sectors: sectors::accepted_list,
    second_sector: sectors::sector_by_index,
    second_read_out: sectors::read_out,
    second_findings: findings::findings,
    second_step: |residual, timing| {
        let (next, step) = SeparatorState { residual }.step(timing);
        (next.residual, step.map(|step| (step.cells, step.offset)))
    },
    second_separate: separator::separate,
};

pub const SINGLE: Calls = Calls {
    sector: boundary::fm_sector,
    read_out: boundary::fm_read_out,
    findings: boundary::fm_findings,
    finding_records: boundary::fm_finding_records,
    step: boundary::fm_step,
    separate: boundary::fm_separate,
    sector_of_track: |track, index| track.in_density(Density::Single).sector(index),
    read_out_of_track: |track, index, buffer| track.in_density(Density::Single).read_out(index, buffer),
    findings_of_track: |track| track.in_density(Density::Single).findings(),
    separator: |residual| Separator::with_residual(residual).in_density(Density::Single),
    separation: |timings, packed| separate_in_density(Density::Single, timings, packed),
    second_sectors: single_density::sectors,
    second_sector: single_density::sector,
    second_read_out: single_density::read_out,
    second_findings: single_density::findings,
    second_step: |residual, timing| {
        let (next, step) = single_density::step(residual, timing);
        (next, step.map(|step| (step.cells, step.offset)))
    },
    second_separate: single_density::separate,
};
