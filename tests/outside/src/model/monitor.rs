//! Counters, counter settings and the operations of mon_ctl, which both controllers share.

use super::field::Field;
use super::registers::{
    mon_ctl_fields, AT, ATV, CONFIG_EVENT, DONE, EVT_ID, MCID, OP, READ_COUNTER, STATUS,
};
use super::Sizes;

// A counter setting, 16 bits.
const SETTING_EVENT: Field = Field::new(7, 0);
const SETTING_AT: Field = Field::new(10, 8);
const SETTING_ATV: Field = Field::new(11, 11);

/// What the operations of mon_ctl work on.
pub struct Monitor<'a> {
    pub na: u64,
    pub nm: u64,
    /// Events 0 to this one are known.
    pub last_event: u64,
    pub counters: &'a mut [u64],
    pub events: &'a mut [u16],
    pub mon_ctl: &'a mut u64,
    pub mon_ctr_val: &'a mut u64,
}

/// The first part of counters and their settings that is not well formed; `ctr` is a counter's number.
pub fn monitor_fault(
    sizes: &impl Sizes,
    last_event: u64,
    ctr: Field,
    counters: &[u64],
    events: &[u16],
) -> Option<&'static str> {
    if counters.iter().any(|&word| ctr.get(word) >> sizes.w() != 0) {
        Some("a counter")
    } else if !events.iter().all(|&word| setting_well_formed(word, sizes.na(), last_event)) {
        Some("a counter setting")
    } else {
        None
    }
}

/// Performs the operation of a value written to mon_ctl.
pub fn write_mon_ctl(value: u64, mut monitor: Monitor) {
    let fields = mon_ctl_fields(value, monitor.na);
    let status = mon_status(fields, monitor.na, monitor.nm, monitor.last_event);
    if status == DONE {
        let mcid = MCID.get(fields) as usize;
        match OP.get(fields) {
            CONFIG_EVENT => configure_event(fields, mcid, &mut monitor),
            _ => *monitor.mon_ctr_val = monitor.counters[mcid],
        }
    }
    *monitor.mon_ctl = fields | STATUS.place(status);
}

/// STATUS of the operation that mon_ctl's fields ask for.
pub fn mon_status(fields: u64, na: u64, nm: u64, last_event: u64) -> u64 {
    let op = OP.get(fields);
    if op != CONFIG_EVENT && op != READ_COUNTER {
        2
    } else if MCID.get(fields) >= nm {
        3
    } else if op == CONFIG_EVENT && EVT_ID.get(fields) > last_event {
        4
    } else if op == CONFIG_EVENT && ATV.get(fields) == 1 && AT.get(fields) >= na {
        5
    } else {
        DONE
    }
}

fn configure_event(fields: u64, mcid: usize, monitor: &mut Monitor) {
    monitor.events[mcid] = setting_of(fields);
    if EVT_ID.get(fields) != 0 {
        monitor.counters[mcid] = 0;
    }
}

/// The setting that CONFIG_EVENT stores: 0 for event 0, and AT only where ATV is 1.
pub fn setting_of(fields: u64) -> u16 {
    let event = EVT_ID.get(fields);
    let atv = ATV.get(fields);
    if event == 0 {
        return 0;
    }
    let at = if atv == 1 { AT.get(fields) } else { 0 };
    let setting = SETTING_EVENT.place(event) | SETTING_AT.place(at) | SETTING_ATV.place(atv);
    setting as u16
}

/// The event of a setting; 0 is a stopped counter.
pub fn event_of(setting: u16) -> u64 {
    SETTING_EVENT.get(setting as u64)
}

/// Whether a setting counts this access type.
pub fn counts_access_type(setting: u16, at: u64) -> bool {
    let word = setting as u64;
    SETTING_ATV.get(word) == 0 || SETTING_AT.get(word) == at
}

/// Whether a setting is one that CONFIG_EVENT stores.
fn setting_well_formed(setting: u16, na: u64, last_event: u64) -> bool {
    if setting == 0 {
        return true;
    }
    let word = setting as u64;
    let named = SETTING_EVENT.mask() | SETTING_AT.mask() | SETTING_ATV.mask();
    let event = SETTING_EVENT.get(word);
    let at = SETTING_AT.get(word);
    // with one access type ATV is held as 0, so no operation stores it as 1
    let filter = match SETTING_ATV.get(word) {
        0 => at == 0,
        _ => na > 1 && at < na,
    };
    word & !named == 0 && (1..=last_event).contains(&event) && filter
}

#[cfg(test)]
mod tests {
    use super::*;

    /// Every setting that some value of mon_ctl stores, by trying all of them.
    fn stored(na: u64, last_event: u64) -> Vec<u16> {
        let mut settings = Vec::new();
        for event in 0..=255 {
            for at in 0..8 {
                for atv in 0..2 {
                    let value = OP.place(1) | AT.place(at) | EVT_ID.place(event) | ATV.place(atv);
                    let fields = mon_ctl_fields(value, na);
                    if mon_status(fields, na, 1, last_event) == DONE {
                        settings.push(setting_of(fields));
                    }
                }
            }
        }
        settings
    }

    #[test]
    fn well_formed_settings_are_those_an_operation_stores() {
        for na in 1..=8 {
            for last_event in [1, 3] {
                let list = stored(na, last_event);
                for setting in 0..=u16::MAX {
                    let expected = list.contains(&setting);
                    assert_eq!(setting_well_formed(setting, na, last_event), expected);
                }
            }
        }
    }

    #[test]
    fn event_0_is_judged_for_its_access_type_too() {
        let value = OP.place(1) | AT.place(2) | ATV.place(1);
        assert_eq!(mon_status(value, 2, 1, 3), 5);
        assert_eq!(mon_status(value, 3, 1, 3), 1);
        assert_eq!(setting_of(value), 0);
    }

    #[test]
    fn read_counter_judges_neither_event_nor_access_type() {
        let value = OP.place(2) | AT.place(7) | EVT_ID.place(200) | ATV.place(1);
        assert_eq!(mon_status(value, 2, 1, 3), 1);
        let beyond = value | MCID.place(1);
        assert_eq!(mon_status(beyond, 2, 1, 3), 3);
    }

    #[test]
    fn the_event_comes_before_the_access_type() {
        let value = OP.place(1) | AT.place(7) | EVT_ID.place(4) | ATV.place(1);
        assert_eq!(mon_status(value, 2, 1, 3), 4);
        assert_eq!(mon_status(value | MCID.place(9), 2, 1, 3), 3);
        assert_eq!(mon_status(value + 2, 2, 1, 3), 2);
    }
}
