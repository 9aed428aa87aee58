//! Opens the crate's private `Flags` to the sweep; nothing of the crate calls this.

use crate::Flags;

/// Time code, captions, services, start, change, complete, active as the crate reads them off the byte.
pub fn flags_read(byte: u8) -> [bool; 7] {
    let flags = Flags::from(byte);
    [
        flags.time_code,
        flags.cc_data,
        flags.svc_info,
        flags.svc_info_start,
        flags.svc_info_change,
        flags.svc_info_complete,
        flags.caption_service_active,
    ]
}

/// The byte that the crate makes of the first six of these, the caption service active.
pub fn flags_made(six: [bool; 6]) -> u8 {
    u8::from(Flags {
        time_code: six[0],
        cc_data: six[1],
        svc_info: six[2],
        svc_info_start: six[3],
        svc_info_change: six[4],
        svc_info_complete: six[5],
        caption_service_active: true,
        _reserved: true,
    })
}
