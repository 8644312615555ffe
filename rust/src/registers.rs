//! Register offsets, operations, events and words, for both controllers, and
//! modes and words of the IOMMU.
//!
//! ```
//! use cbqri::registers as reg;
//!
//! const SET: u64 = reg::alloc_ctl(reg::CONFIG_LIMIT, 1, 1);
//! assert_eq!(SET, 0x121);
//! assert_eq!(reg::mon_ctl(reg::CONFIG_EVENT, 0, 2, reg::EVENT_BYTES, false), 0x100201);
//! assert_eq!(reg::holder(30, 5), 0x0050_001e);
//! assert_eq!(reg::sharer(1), 0x9000_0000);
//! assert_eq!(reg::iommu_qosid(1, 2), 0x0002_0001);
//! assert_eq!(reg::dc_ta(1, 2), 0x0020_0100_0000_0000);
//! ```

/// VER, and NBWBLKS and MRBWB, or NCBLKS and FRCID; read-only.
pub const CAPABILITIES: u64 = 0;
/// OP 4:0, AT 7:5, MCID 19:8, EVT_ID 27:20, ATV 28, STATUS 38:32, BUSY 39.
pub const MON_CTL: u64 = 8;
/// The counter that READ_COUNTER copied; read-only.
pub const MON_CTR_VAL: u64 = 16;
/// OP 4:0, AT 7:5, RCID 19:8, STATUS 38:32, BUSY 39.
pub const ALLOC_CTL: u64 = 24;
/// Bandwidth: Rbwb 15:0, Mweight 27:20, sharedAT 30:28, useShared 31.
pub const BW_ALLOC: u64 = 32;
/// Capacity: a bit for each block.
pub const BLOCK_MASK: u64 = 32;
/// Bytes of a controller's registers.
pub const SPAN: u64 = 40;

/// OP of alloc_ctl: store bw_alloc or block_mask for a pair of RCID and AT.
pub const CONFIG_LIMIT: u64 = 1;
/// OP of alloc_ctl: copy what is configured into bw_alloc or block_mask.
pub const READ_LIMIT: u64 = 2;
/// OP of the capacity controller's alloc_ctl: evict every unit that the RCID owns,
/// whatever AT is named; masks and block_mask stay.
pub const FLUSH_RCID: u64 = 3;
/// OP of mon_ctl: let a counter count an event.
pub const CONFIG_EVENT: u64 = 1;
/// OP of mon_ctl: copy a counter into mon_ctr_val.
pub const READ_COUNTER: u64 = 2;

/// Stops the counter; it keeps value and flags.
pub const EVENT_NONE: u64 = 0;
/// Bandwidth: bytes read and written.
pub const EVENT_BYTES: u64 = 1;
/// Bandwidth: bytes read.
pub const EVENT_READS: u64 = 2;
/// Bandwidth: bytes written.
pub const EVENT_WRITES: u64 = 3;
/// Capacity: units filled and not evicted.
pub const EVENT_OCCUPANCY: u64 = 1;

/// INVALID of a bandwidth counter.
pub const BANDWIDTH_INVALID: u64 = 1 << 62;
/// OVF of a bandwidth counter.
pub const BANDWIDTH_OVF: u64 = 1 << 63;
/// INVALID of a capacity counter.
pub const CAPACITY_INVALID: u64 = 1 << 63;

/// Mode of an IOMMU that is off: a device has RCID and MCID of iommu_qosid.
pub const IOMMU_OFF: u64 = 0;
/// Mode of a bare IOMMU: likewise.
pub const IOMMU_BARE: u64 = 1;
/// Mode of an IOMMU with a device directory, as is any other number: a device
/// has RCID and MCID of DC.ta.
pub const IOMMU_DIRECTORY: u64 = 2;

/// A word for alloc_ctl.
#[must_use]
pub const fn alloc_ctl(op: u64, at: u64, rcid: u64) -> u64 {
    (op & 0x1f) | (at & 7) << 5 | (rcid & 0xfff) << 8
}

/// A word for mon_ctl.
#[must_use]
pub const fn mon_ctl(op: u64, at: u64, mcid: u64, evt_id: u64, atv: bool) -> u64 {
    (op & 0x1f) | (at & 7) << 5 | (mcid & 0xfff) << 8 | (evt_id & 0xff) << 20 | (atv as u64) << 28
}

/// A word for bw_alloc: the pair holds Rbwb blocks, and all holders of its RCID
/// get this Mweight. With Mweight 0 the pool gives them nothing.
#[must_use]
pub const fn holder(rbwb: u16, mweight: u8) -> u64 {
    rbwb as u64 | (mweight as u64) << 20
}

/// A word for bw_alloc: the pair uses the blocks of another AT of its RCID.
#[must_use]
pub const fn sharer(shared_at: u64) -> u64 {
    1 << 31 | (shared_at & 7) << 28
}

/// A word for the IOMMU's register iommu_qosid: RCID 11:0, MCID 27:16.
#[must_use]
pub const fn iommu_qosid(rcid: u64, mcid: u64) -> u64 {
    (rcid & 0xfff) | (mcid & 0xfff) << 16
}

/// A word for DC.ta of a device context: RCID 51:40, MCID 63:52, its other
/// fields 0.
#[must_use]
pub const fn dc_ta(rcid: u64, mcid: u64) -> u64 {
    (rcid & 0xfff) << 40 | (mcid & 0xfff) << 52
}
