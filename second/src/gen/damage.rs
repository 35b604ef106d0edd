//! Damage: what is changed in a sound message, in its draft or in its bytes.

use super::draft::{field_name, Draft, Length, SOME_FIELDS};
use super::random::Random;
use crate::octets::without_blanks;

/// Damages a draft in one of these ways.
pub fn damage(draft: &mut Draft, random: &mut Random) {
    match random.below(13) {
        0 => stated_length(draft, random),
        1 => version(draft, random),
        2 | 3 => start_line(draft, random),
        4 => name_length(draft, random),
        5 => field_count(draft, random),
        6 | 7 => malformed_line(draft, random),
        8 => value_byte(draft, random),
        9 => repeated_field(draft, random),
        10 => content_length(draft, random),
        11 => empty_line(draft, random),
        _ => blanks_and_case(draft, random),
    }
}

fn digits(text: &str) -> Length {
    Length::Written(text.as_bytes().to_vec())
}

/// Off by one both ways and far off, leading zeros, 19 and 20 digits, around 16,384.
pub fn stated_length(draft: &mut Draft, random: &mut Random) {
    draft.length = match random.below(16) {
        0 | 1 => Length::Off(-1),
        2 | 3 => Length::Off(1),
        4 => Length::Off(random.between(2, 40) as i64),
        5 => Length::Off(-(random.between(2, 40) as i64)),
        6 | 7 => Length::Right(random.between(1, 19)),
        8 => digits(random.pick(&["16383", "16384", "16385", "16386", "99999"])),
        9 => digits(random.pick(&["9999999999999999999", "0000000000000016384"])),
        10 => digits(random.pick(&["10000000000000000000", "00000000000000000050"])),
        // Around two to the 32, 63 and 64, and what they hold when cut off.
        11 => digits(random.pick(&["4294967296", "4294967396", "9223372036854775808"])),
        12..=14 => Length::Written(random.below(40).to_string().into_bytes()),
        _ => digits(random.pick(&["", "-1", "+50", "5x", "0x32", "1e2", "50.", " 50", "50 "])),
    };
    if random.chance(50) {
        let length = random.below(45);
        draft.after = vec![b'x'; length];
    }
}

pub fn version(draft: &mut Draft, random: &mut Random) {
    let text = random.pick(&[
        "02.00", "2.00", "02.0", "1.0", "2.1", "3.0", "0.0", "99.99", "20.0", "2.01", "2.", ".0",
        "2", "002.0", "2.000", "2,0", "2.x", "2.0 ", " 2.0", "", "2.0\t",
    ]);
    draft.version = text.as_bytes().to_vec();
}

const START_LINES: [&[u8]; 44] = [
    b"",
    b" ",
    b"STOP",
    b"STOP ",
    b" STOP 9",
    b"STOP 9 ",
    b"STOP  9",
    b"STOP\t9",
    b"stop 9",
    b"Stop 9",
    b"STOP 9x",
    b"STOP x9",
    b"STOP -9",
    b"STOP +9",
    b"STOP 4294967295",
    b"STOP 4294967296",
    b"STOP 9999999999",
    b"STOP 0000000009",
    b"STOP 00000000009",
    b"STOP 10000000000",
    b"-STOP 9",
    b"STOP- 9",
    b"ST0P 9",
    b"ST_OP 9",
    b"STOP 9\r",
    b"STOP\r 9",
    b"STOP 9\n",
    b"STOP 9 COMPLETE",
    b"STOP 9 complete",
    b"STOP 9 COMPLETED",
    b"STOP 9 COMPLETE ",
    b"STOP 9 DONE",
    b"STOP 9 200 COMPLETE",
    b"9 200 COMPLETE",
    b"9 20 COMPLETE",
    b"9 2000 COMPLETE",
    b"9 2x0 COMPLETE",
    b"9 000 PENDING",
    b"9 999 IN-PROGRESS",
    b"9 200 IN_PROGRESS",
    b"9 200",
    b"9",
    b"4294967296 200 COMPLETE",
    b"SPEAK-COMPLETE 4294967296 COMPLETE",
];

pub fn start_line(draft: &mut Draft, random: &mut Random) {
    match random.below(10) {
        0 => {
            let length = random.between(30, 34);
            let mut line = random.letters(b"ABCZ-", length);
            line[0] = b'Q';
            draft.line = [&line[..], b" 9"].concat();
        }
        1 => {
            draft.line_end = random
                .pick(&[&b"\n"[..], b"\r", b"", b"\n\r", b"\r\r\n"])
                .to_vec()
        }
        2 => damage_bytes(&mut draft.line, random),
        _ => draft.line = random.pick(&START_LINES).to_vec(),
    }
}

/// Field names of 63, 64 and 65 bytes, and of none.
pub fn name_length(draft: &mut Draft, random: &mut Random) {
    let length = random.pick(&[0, 1, 63, 64, 64, 65, 65, 66, 100]);
    let name = random.letters(b"abcXYZ019-", length);
    draft.field(&name, b"v");
}

/// 31, 32 and 33 fields.
pub fn field_count(draft: &mut Draft, random: &mut Random) {
    let wanted = random.pick(&[30, 31, 32, 32, 33, 33, 34, 40]);
    while draft.fields.len() < wanted {
        let number = draft.fields.len().to_string();
        let name = random.pick(&[&b"X"[..], b"Y-Z", b"x"]);
        draft.field(name, number.as_bytes());
    }
}

const MALFORMED: [&[u8]; 16] = [
    b"no colon",
    b"nocolon",
    b":value",
    b"name\r\n :value",
    b"na\r\n\tme:value",
    b"na me:value",
    b"name :value",
    b"na_me:value",
    b"na\xe9me:value",
    b"name;value",
    b"name:va\rlue",
    b"name:va\nlue",
    b"name:va\0lue",
    b"name:value\r",
    b"\rname:value",
    b"\nname:value",
];

/// Continued lines, which are malformed before any field.
pub const CONTINUED: [&[u8]; 5] = [b" name:value", b"\tname:value", b" ", b"\t\t", b" \t "];

pub fn malformed_line(draft: &mut Draft, random: &mut Random) {
    if random.chance(20) {
        return draft.fields.insert(0, random.pick(&CONTINUED).to_vec());
    }
    let line = random.pick(&MALFORMED).to_vec();
    let place = random.below(draft.fields.len() + 1);
    draft.fields.insert(place, line);
}

/// Any of the 256 bytes in a value: first, last or in the middle.
pub fn value_byte(draft: &mut Draft, random: &mut Random) {
    let byte = random.byte();
    let value = match random.below(4) {
        0 => vec![byte],
        1 => vec![byte, b'x'],
        2 => vec![b'x', byte],
        _ => vec![b'x', byte, b'y'],
    };
    let place = random.below(draft.fields.len() + 1);
    draft.fields.insert(place, [&b"V:"[..], &value].concat());
}

/// A field twice, its name in another case; only known names may not.
pub fn repeated_field(draft: &mut Draft, random: &mut Random) {
    let mut again = match draft.fields.is_empty() {
        true => random.pick(&SOME_FIELDS).to_vec(),
        false => draft.fields[random.below(draft.fields.len())].clone(),
    };
    let name = field_name(&again).len();
    change_case(&mut again[..name], random);
    draft.fields.push(again.clone());
    if draft.fields.len() == 1 {
        draft.fields.push(again);
    }
}

fn change_case(letters: &mut [u8], random: &mut Random) {
    let how = random.below(4);
    for byte in letters {
        match how {
            0 => byte.make_ascii_lowercase(),
            1 => byte.make_ascii_uppercase(),
            2 if byte.is_ascii_alphabetic() && random.chance(50) => *byte ^= 0x20,
            _ => {}
        }
    }
}

/// A Content-Length that disagrees, or agrees in an unusual way.
pub fn content_length(draft: &mut Draft, random: &mut Random) {
    draft.remove(b"Content-Length");
    let right = draft.body.len();
    let value = match random.below(16) {
        0 => (right + 1).to_string(),
        1 => right.saturating_sub(1).to_string(),
        2 => format!("{right:019}"),
        3 => format!("{right:020}"),
        4 => format!("{right:05}"),
        5 => format!(" \t{right} \t"),
        6 => format!("{right} 0"),
        7 => format!("+{right}"),
        8 => format!("{right}x"),
        9 => String::new(),
        10 => "9999999999999999999".to_string(),
        11 => "18446744073709551616".to_string(),
        12 => (right as u64 + (1 << 32)).to_string(),
        13 => (right + 10).to_string(),
        14 => format!("{right},{right}"),
        _ => return,
    };
    let place = random.below(draft.fields.len() + 1);
    let field = format!("Content-Length:{value}").into_bytes();
    draft.fields.insert(place, field);
}

/// The right Content-Length, first of all fields.
pub fn set_content_length(draft: &mut Draft) {
    draft.remove(b"Content-Length");
    let field = format!("Content-Length:{}", draft.body.len());
    draft.fields.insert(0, field.into_bytes());
}

/// No empty line, or something else in its place.
pub fn empty_line(draft: &mut Draft, random: &mut Random) {
    draft.end = random
        .pick(&[
            &b""[..],
            b"\n",
            b"\r",
            b" \r\n",
            b"\t\r\n",
            b"\r\r\n",
            b"\n\r\n",
        ])
        .to_vec();
}

/// Nothing wrong: blanks at the ends of values, names in another case.
pub fn blanks_and_case(draft: &mut Draft, random: &mut Random) {
    for field in &mut draft.fields {
        let end = field_name(field).len();
        if end == field.len() {
            continue;
        }
        let mut name = field[..end].to_vec();
        change_case(&mut name, random);
        let before = random.pick(&[&b""[..], b" ", b"\t", b"  \t "]);
        let after = random.pick(&[&b""[..], b" ", b"\t", b" \t "]);
        let value = without_blanks(&field[end + 1..]);
        *field = [&name[..], b":", before, value, after].concat();
    }
}

/// One change in the bytes: another byte, one more, one less, a cut, a swap.
pub fn damage_bytes(bytes: &mut Vec<u8>, random: &mut Random) {
    if bytes.is_empty() {
        return bytes.push(random.byte());
    }
    let place = random.below(bytes.len());
    match random.below(8) {
        0 | 1 => bytes[place] = other_byte(bytes[place], random),
        2 => bytes.insert(place, other_byte(b' ', random)),
        3 => drop(bytes.remove(place)),
        4 => bytes.truncate(place),
        5 => {
            let end = bytes.len() - 1;
            bytes.swap(place, (place + 1).min(end));
        }
        6 => move_line(bytes, random),
        _ => {
            let end = (place + random.below(8)).min(bytes.len());
            let part = bytes[place..end].to_vec();
            bytes.splice(place..place, part);
        }
    }
}

/// A byte that is likely to matter.
pub fn other_byte(byte: u8, random: &mut Random) -> u8 {
    match random.below(6) {
        0 => byte ^ 0x20,
        1 => byte.wrapping_add(1),
        2 => byte.wrapping_sub(1),
        3 => random.pick(b"\r\n \t:-,0915AZaz@./\0\x7f\x80\xff"),
        _ => random.byte(),
    }
}

/// Takes one line out and puts it elsewhere, or there a second time.
fn move_line(bytes: &mut Vec<u8>, random: &mut Random) {
    let mut lines: Vec<Vec<u8>> = bytes
        .split_inclusive(|&byte| byte == b'\n')
        .map(<[u8]>::to_vec)
        .collect();
    let from = random.below(lines.len());
    let line = match random.chance(70) {
        true => lines.remove(from),
        false => lines[from].clone(),
    };
    let to = random.below(lines.len() + 1);
    lines.insert(to, line);
    *bytes = lines.concat();
}
