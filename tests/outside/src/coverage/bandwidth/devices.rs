//! What a run shows of requests of devices, each with the mode of the IOMMU.

use super::super::{unknown, Labels};
use super::grants::{source, SOURCES};
use crate::model::bandwidth::device::{BARE, DC_TA, IOMMU_QOSID, OFF};
use crate::model::bandwidth::{DeviceRequest, Setup, State};
use crate::model::Grant;

pub const OFF_NAME: &str = "device_request (off)";
pub const BARE_NAME: &str = "device_request (bare)";
pub const DIRECTORY_NAME: &str = "device_request (directory)";

pub fn name(device: &DeviceRequest) -> &'static str {
    match device.mode {
        OFF => OFF_NAME,
        BARE => BARE_NAME,
        _ => DIRECTORY_NAME,
    }
}

const COUNTED: &str = "counted";
/// The word's fields of the other layout would be answered otherwise.
const ONLY_HERE: &str = "accepted, refused by the other layout";
const ONLY_THERE: &str = "refused, accepted by the other layout";

pub fn accepted(before: &State, device: &DeviceRequest, grant: Grant, after: &State) -> Labels {
    let request = device.request();
    let mcid = request.mcid as usize;
    let mut labels = vec![label(name(device), &source(before, &request, grant))];
    if before.counters[mcid] != after.counters[mcid] {
        labels.push(label(name(device), COUNTED));
    }
    if !known_by_the_other_layout(&before.record.setup, device) {
        labels.push(label(name(device), ONLY_HERE));
    }
    labels
}

pub fn refused(setup: &Setup, device: &DeviceRequest) -> Labels {
    let request = device.request();
    let mut labels = Labels::new();
    labels.extend(unknown(name(device), setup, request.rcid, request.mcid));
    if known_by_the_other_layout(setup, device) {
        labels.push(label(name(device), ONLY_THERE));
    }
    labels
}

fn known_by_the_other_layout(setup: &Setup, device: &DeviceRequest) -> bool {
    let other = device.by(if device.has_directory() { IOMMU_QOSID } else { DC_TA });
    other.rcid < setup.nr && other.mcid < setup.nm
}

fn label(name: &str, outcome: &str) -> String {
    format!("{name} {outcome}")
}

pub fn required() -> Labels {
    let outcomes: Vec<&str> = SOURCES.into_iter().chain([COUNTED, ONLY_HERE, ONLY_THERE]).collect();
    let names = [OFF_NAME, BARE_NAME, DIRECTORY_NAME];
    let of_mode = |name| outcomes.iter().map(move |outcome| label(name, outcome));
    names.into_iter().flat_map(of_mode).collect()
}
