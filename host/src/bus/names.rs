//! Names of EN 13757-3: media, data, quantities and states, for people.

/// The name of a medium (device type).
pub fn medium_name(medium: u8) -> &'static str {
    match medium {
        0x00 => "other",
        0x01 => "oil",
        0x02 => "electricity",
        0x03 => "gas",
        0x04 => "heat, at the outlet",
        0x05 => "steam",
        0x06 => "warm water",
        0x07 => "water",
        0x08 => "heat cost allocator",
        0x09 => "compressed air",
        0x0a => "cooling, at the outlet",
        0x0b => "cooling, at the inlet",
        0x0c => "heat, at the inlet",
        0x0d => "heat and cooling",
        0x0e => "bus or system",
        0x0f => "unknown",
        0x15 => "hot water",
        0x16 => "cold water",
        0x17 => "hot and cold water",
        0x18 => "pressure",
        0x19 => "converter",
        0x1a => "smoke detector",
        0x1b => "room sensor",
        0x1c => "gas detector",
        0x20 => "breaker",
        0x21 => "valve",
        0x25 => "display",
        0x28 => "waste water",
        0x29 => "waste",
        0x31 => "gateway",
        0x32 | 0x33 => "repeater",
        0x36 | 0x37 => "radio converter",
        _ => "not named",
    }
}

/// What a status byte says; nothing where all is well.
pub fn status_words(status: u8) -> Vec<&'static str> {
    let application = match status & 3 {
        1 => Some("busy"),
        2 => Some("application error"),
        3 => Some("abnormal condition"),
        _ => None,
    };
    let bits = [(4, "power low"), (8, "permanent error"), (16, "temporary error"), (0xe0, "manufacturer's own")];
    let others = bits.into_iter().filter(|(bits, _)| status & bits != 0).map(|(_, name)| name);
    application.into_iter().chain(others).collect()
}

/// How a DIF's data are written.
pub fn data_name(dif: u8) -> &'static str {
    match dif & 15 {
        0 => "no data",
        1 => "8-bit integer",
        2 => "16-bit integer",
        3 => "24-bit integer",
        4 => "32-bit integer",
        5 => "32-bit real",
        6 => "48-bit integer",
        7 => "64-bit integer",
        8 => "selection for readout",
        9 => "2 digits",
        10 => "4 digits",
        11 => "6 digits",
        12 => "8 digits",
        14 => "12 digits",
        _ => "of no length",
    }
}

/// Which value it is, where it is not the one at the time.
pub fn function_name(dif: u8) -> Option<&'static str> {
    match dif >> 4 & 3 {
        1 => Some("maximum"),
        2 => Some("minimum"),
        3 => Some("in an error state"),
        _ => None,
    }
}

/// Whether the VIF is that of a date, or of a date and time.
pub fn is_date(vif: &[u8]) -> bool {
    matches!(vif.first().map(|first| first & 0x7f), Some(0x6c | 0x6d))
}

/// What a VIF says: the quantity, its unit, and the power of ten by which the number is multiplied. Nothing for the tables behind
/// FB and FD, and for what has no name.
pub fn quantity(vif: &[u8]) -> Option<(&'static str, &'static str, i32)> {
    const TIMES: [&str; 4] = ["s", "min", "h", "d"];
    let vif = vif.first()? & 0x7f;
    let eighth = i32::from(vif & 7);
    let fourth = i32::from(vif & 3);
    let time = TIMES[usize::from(vif & 3)];
    Some(match vif {
        0x00..=0x07 => ("energy", "kWh", eighth - 6),
        0x08..=0x0f => ("energy", "MJ", eighth - 6),
        0x10..=0x17 => ("volume", "l", eighth - 3),
        0x18..=0x1f => ("mass", "kg", eighth - 3),
        0x20..=0x23 => ("on time", time, 0),
        0x24..=0x27 => ("operating time", time, 0),
        0x28..=0x2f => ("power", "W", eighth - 3),
        0x30..=0x37 => ("power", "MJ/h", eighth - 6),
        0x38..=0x3f => ("volume flow", "l/h", eighth - 3),
        0x40..=0x47 => ("volume flow", "l/min", eighth - 4),
        0x48..=0x4f => ("volume flow", "l/s", eighth - 6),
        0x50..=0x57 => ("mass flow", "kg/h", eighth - 3),
        0x58..=0x5b => ("flow temperature", "°C", fourth - 3),
        0x5c..=0x5f => ("return temperature", "°C", fourth - 3),
        0x60..=0x63 => ("temperature difference", "K", fourth - 3),
        0x64..=0x67 => ("outside temperature", "°C", fourth - 3),
        0x68..=0x6b => ("pressure", "bar", fourth - 3),
        0x6c => ("date", "", 0),
        0x6d => ("date and time", "", 0),
        0x6e => ("heat cost allocation", "", 0),
        0x70..=0x73 => ("averaging time", time, 0),
        0x74..=0x77 => ("time since", time, 0),
        0x78 => ("fabrication number", "", 0),
        0x79 => ("identification", "", 0),
        0x7a => ("bus address", "", 0),
        0x7f => ("manufacturer's own", "", 0),
        _ => return None,
    })
}

/// A number times a power of ten, in digits: none is lost.
pub fn scaled(number: i64, power: i32) -> String {
    let sign = if number < 0 { "-" } else { "" };
    let mut digits = number.unsigned_abs().to_string();
    if power >= 0 {
        if number != 0 {
            digits.extend(std::iter::repeat_n('0', power.unsigned_abs() as usize));
        }
        return format!("{sign}{digits}");
    }
    let behind = power.unsigned_abs() as usize;
    let digits = format!("{digits:0>width$}", width = behind + 1);
    let (whole, part) = digits.split_at(digits.len() - behind);
    format!("{sign}{whole}.{part}")
}
