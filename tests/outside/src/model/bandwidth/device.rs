//! Requests of devices through the IOMMU: where their RCID and MCID come from.

use super::{DeviceRequest, Request};
use crate::model::field::Field;

/// The modes of an IOMMU without a device directory; any other number is one with a directory.
pub const OFF: u64 = 0;
pub const BARE: u64 = 1;

/// Where a word has the identifiers; its other bits are ignored.
#[derive(Clone, Copy, Debug)]
pub struct Layout {
    pub rcid: Field,
    pub mcid: Field,
}

pub const IOMMU_QOSID: Layout = Layout { rcid: Field::new(11, 0), mcid: Field::new(27, 16) };
/// The word ta of a device context.
pub const DC_TA: Layout = Layout { rcid: Field::new(51, 40), mcid: Field::new(63, 52) };

impl DeviceRequest {
    pub fn has_directory(&self) -> bool {
        self.mode != OFF && self.mode != BARE
    }

    pub fn layout(&self) -> Layout {
        if self.has_directory() {
            DC_TA
        } else {
            IOMMU_QOSID
        }
    }

    /// The request with the identifiers that the word has by this layout.
    pub fn by(&self, layout: Layout) -> Request {
        let DeviceRequest { word, at, kind, bytes, .. } = *self;
        Request { rcid: layout.rcid.get(word), mcid: layout.mcid.get(word), at, kind, bytes }
    }

    /// The request that this one is, once its identifiers are known.
    pub fn request(&self) -> Request {
        self.by(self.layout())
    }
}

#[cfg(test)]
mod tests {
    use super::*;

    fn identifiers(mode: u64, word: u64) -> (u64, u64) {
        let request = DeviceRequest { mode, word, at: 0, kind: 0, bytes: 0 }.request();
        (request.rcid, request.mcid)
    }

    // the digits of iommu_qosid are 5 for RCID and 6 for MCID, those of DC.ta 3 and 4
    const WORD: u64 = 0x4443_3392_8666_1555;

    #[test]
    fn off_and_bare_take_the_register() {
        assert_eq!(identifiers(0, WORD), (0x555, 0x666));
        assert_eq!(identifiers(1, WORD), (0x555, 0x666));
    }

    #[test]
    fn any_other_mode_takes_the_device_context() {
        for mode in [2, 3, 4, 1 << 32, (1 << 32) + 1, 1 << 63, u64::MAX] {
            assert_eq!(identifiers(mode, WORD), (0x333, 0x444), "mode {mode}");
        }
    }

    #[test]
    fn other_bits_are_ignored() {
        assert_eq!(identifiers(1, 0xFFFF_FFFF_F000_F000), (0, 0));
        assert_eq!(identifiers(1, 0x0000_0000_0FFF_0FFF), (4_095, 4_095));
        assert_eq!(identifiers(2, 0x0000_00FF_FFFF_FFFF), (0, 0));
        assert_eq!(identifiers(2, 0xFFFF_FF00_0000_0000), (4_095, 4_095));
    }

    #[test]
    fn all_else_is_handed_on() {
        let device = DeviceRequest { mode: 1, word: 0x0002_0001, at: 9, kind: 7, bytes: 2_000 };
        let request = Request { rcid: 1, mcid: 2, at: 9, kind: 7, bytes: 2_000 };
        assert_eq!(device.request(), request);
    }
}
