//! Every code of OP and of EVT_ID, in both control registers of both controllers, by the rows of
//! the standard's tables.

use super::case::capacity_record::{ALLOC_CTL_WORD, MON_CTL_WORD};
use super::case::{BandwidthCase, CapacityCase, Case};
use super::sweep::probe;
use super::Report;
use crate::controller::Controller;
use crate::model::access::{ALLOC_CTL, MON_CTL};
use crate::model::{bandwidth, capacity};

/// A row: its first and its last code, and the STATUS where nothing else is wrong.
type Row = (u64, u64, u64);

/// Tables 3, 9 and 12: reserved; CONFIG_LIMIT or CONFIG_EVENT; READ_LIMIT or READ_COUNTER; reserved;
/// custom.
const OPERATIONS: [Row; 5] = [(0, 0, 2), (1, 1, 1), (2, 2, 1), (3, 23, 2), (24, 31, 2)];

/// Table 6: reserved; CONFIG_LIMIT; READ_LIMIT; FLUSH_RCID; reserved; custom.
const CAPACITY_OPERATIONS: [Row; 6] =
    [(0, 0, 2), (1, 1, 1), (2, 2, 1), (3, 3, 1), (4, 23, 2), (24, 31, 2)];

/// Table 10: none; total bytes, bytes read, bytes written; reserved; custom.
const BANDWIDTH_EVENTS: [Row; 6] =
    [(0, 0, 1), (1, 1, 1), (2, 2, 1), (3, 3, 1), (4, 127, 4), (128, 255, 4)];

/// Table 4: none; occupancy; reserved; custom.
const CAPACITY_EVENTS: [Row; 4] = [(0, 0, 1), (1, 1, 1), (2, 127, 4), (128, 255, 4)];

/// A control register: its offset, its word in the record, and the rows of its OP.
struct Control {
    offset: u64,
    word: usize,
    rows: &'static [Row],
}

pub fn run(report: &mut Report) {
    let mut c = BandwidthCase::after_reset(report, [100, 80, 4, 2, 4, 64, 24]);
    c.configure("a good operand", (0, 0), 30, 1);
    operations(&mut c, &Control { offset: MON_CTL, word: 7, rows: &OPERATIONS });
    operations(&mut c, &Control { offset: ALLOC_CTL, word: 9, rows: &OPERATIONS });
    events(&mut c, bandwidth::slices::EVENTS, &BANDWIDTH_EVENTS);

    let mut c = CapacityCase::after_reset(report, [8, 4, 2, 4, 24, 2]);
    c.configure("a good operand", (0, 0), 0x0F, 1);
    operations(&mut c, &Control { offset: MON_CTL, word: MON_CTL_WORD, rows: &OPERATIONS });
    let rows = &CAPACITY_OPERATIONS;
    operations(&mut c, &Control { offset: ALLOC_CTL, word: ALLOC_CTL_WORD, rows });
    events(&mut c, capacity::slices::EVENTS, &CAPACITY_EVENTS);
}

/// Each code of a table with its STATUS.
fn codes(table: &[Row]) -> impl Iterator<Item = (u64, u64)> + '_ {
    table.iter().flat_map(|&(first, last, status)| (first..=last).map(move |code| (code, status)))
}

/// RCID 0 AT 0 or MCID 0; RCID 4 of 4 or MCID 4 of 4, which only a valid OP is judged by. An invalid
/// one changes its own register and nothing else.
fn operations<C: Controller>(c: &mut Case<C>, control: &Control) {
    for (op, status) in codes(control.rows) {
        let name = format!("OP {op}");
        c.operation(&name, control.offset, op, status);
        if status == 2 {
            let word = 0x2_0000_0400 | op;
            c.write_changes(&name, [8, control.offset, 0x400 | op], &[(control.word, word)]);
        } else {
            c.operation(&name, control.offset, 0x400 | op, 3);
        }
    }
}

/// CONFIG_EVENT and READ_COUNTER of MCID 0 with each EVT_ID, and a lent counter setting with it.
fn events<C: Controller>(c: &mut Case<C>, settings: usize, table: &[Row]) {
    for (event, status) in codes(table) {
        let name = format!("EVT_ID {event}");
        c.mon(&name, event << 20 | 1, status);
        c.mon(&name, event << 20 | 2, 1);
        probe(c, &name, &[(settings, 0, event)], if status == 1 { 0 } else { 3 });
    }
}
