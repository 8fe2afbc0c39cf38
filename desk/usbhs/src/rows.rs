//! The rows of refusals in words (include/usbhs.h, include/usbhs_survey.h).

/// What a refusal with this row's number says.
pub fn words(row: u8) -> &'static str {
    match row {
        1 => "the slots' length is not count times size",
        2 => "a buffer size that is not 8, 16, 32, 64, 512 or 1,024, a count of 0, or more than 65,536 bytes in all",
        3 => "an operation is under way",
        4 => "not at this stage",
        5 => "no such endpoint",
        6 => "the maximum is above the buffer size",
        7 => "the address is taken, or no number is free",
        8 => "the buffers run out",
        9 => "the endpoint is disabled, or a setup packet waits",
        10 => "the length does not fit",
        11 => "the endpoint is not isochronous",
        12 => "no packet waits",
        13 => "two packets wait already",
        14 => "no packet is open",
        15 => "nothing is under way",
        16 => "the reading has bits above its width",
        17 => "no configuration descriptor as it must be",
        18 => "one address has two transfer types",
        19 => "the bus time in use would pass 6,000 byte-times",
        20 => "more than 16 channels, or a budget of 0",
        21 => "a stream that is not whole blocks, or a packet that cannot be written",
        22 => "EP0's maximum is not 64",
        23 => "a distance of 0 or above 16,383, or a least above its greatest",
        _ => "refused",
    }
}

/// The same with its number.
pub fn refused(row: u8) -> String {
    format!("refused with {row}: {}", words(row))
}
