// Made by scripts/erase of crates/acpi_fixed/src/fadt/registers/readings.rt, where it is proved.
//! Made by scripts/readings: records, as their definitions in specs/ read them from bytes.

use super::{Registers, block_at, extended_address};
use crate::base::bytes::filled_in;

pub(crate) fn registers_at(bytes: &[u8]) -> Registers {
    Registers {
        pm1a_event: block_at(bytes, 56, 88, 148), // PM1a_EVT_BLK, PM1_EVT_LEN, X_PM1a_EVT_BLK
        pm1b_event: block_at(bytes, 60, 88, 160), // PM1b_EVT_BLK, PM1_EVT_LEN, X_PM1b_EVT_BLK
        pm1a_control: block_at(bytes, 64, 89, 172), // PM1a_CNT_BLK, PM1_CNT_LEN, X_PM1a_CNT_BLK
        pm1b_control: block_at(bytes, 68, 89, 184), // PM1b_CNT_BLK, PM1_CNT_LEN, X_PM1b_CNT_BLK
        pm2_control: block_at(bytes, 72, 90, 196), // PM2_CNT_BLK, PM2_CNT_LEN, X_PM2_CNT_BLK
        pm_timer: block_at(bytes, 76, 91, 208),   // PM_TMR_BLK, PM_TMR_LEN, X_PM_TMR_BLK
        gpe0: block_at(bytes, 80, 92, 220),       // GPE0_BLK, GPE0_BLK_LEN, X_GPE0_BLK
        gpe1: block_at(bytes, 84, 93, 232),       // GPE1_BLK, GPE1_BLK_LEN, X_GPE1_BLK
        reset: filled_in(bytes, 116),             // RESET_REG
        sleep_control: extended_address(bytes, 244), // SLEEP_CONTROL_REG
        sleep_status: extended_address(bytes, 256), // SLEEP_STATUS_REG
    }
}
