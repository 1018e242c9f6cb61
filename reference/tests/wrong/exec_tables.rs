//! Tables of the exec byte that are wrong on purpose, each in a way of its own.

use reference::exec_line::exec_line;

/// The lines of a table that is wrong in a way, with what ends them.
pub fn table(way: &str) -> String {
    match way {
        "one-size" => of(|it| it.replace("94 16 4 NM", "94 17 4 NM")),
        "one-good" => of(|it| it.replace("8e reserved", "8e 1 0")),
        "one-reserved" => of(|it| it.replace("f4 16 28 NM", "f4 reserved")),
        "mask-number" => of(|it| with_offset(it, |offset| offset / 4 + 1)),
        "mask-from-0" => of(|it| with_offset(it, |offset| offset / 4)),
        "over-32" => of(|it| reserved_if(it, |size, offset| offset + size > 32)),
        "scatter" => of(|it| reserved_if(it, |size, _| size != 8 && size != 16)),
        "bit-3" => of(|it| like(&it, |byte| byte & 0xf7)),
        "codes-6-and-7" => of(|it| like(&it, |byte| byte & !((byte & 0x06) / 6 * 0x04))),
        "no-nm" => of(|it| it.replace(" NM", "")),
        "nm-of-all" => of(|it| it.trim_end_matches(" NM").to_string() + " NM"),
        "upper-case" => of(|it| it.to_ascii_uppercase().replace("RESERVED", "reserved")),
        "two-spaces" => of(|it| it.replacen(' ', "  ", 1)),
        "space-behind" => of(|it| it + " "),
        "first-missing" => of(|it| it)["00 1 0\n".len()..].to_string(),
        "last-missing" => of(|it| it).replace("ff reserved\n", ""),
        "last-twice" => of(|it| it) + "ff reserved\n",
        "empty-line-behind" => of(|it| it) + "\n",
        "no-last-end" => of(|it| it).trim_end().to_string(),
        "silent" => String::new(),
        other => panic!("no way {other:?} of being wrong"),
    }
}

/// The right line, but for reserved bytes.
pub fn panics_where_reserved(byte: u8) -> String {
    let line = exec_line(byte);
    assert!(!line.ends_with("reserved"), "wrong on purpose");
    line
}

/// The right lines, each changed.
fn of(change: impl Fn(String) -> String) -> String {
    let line = |byte| change(exec_line(byte)) + "\n";
    (0..=255).map(line).collect()
}

/// The line of a byte with what another one's line says.
fn like(line: &str, other: fn(u8) -> u8) -> String {
    let byte = u8::from_str_radix(&line[..2], 16).unwrap();
    format!("{}{}", &line[..2], &exec_line(other(byte))[2..])
}

/// Size and offset of a line, unless it is reserved.
fn numbers(line: &str) -> Option<(u64, u64)> {
    let words: Vec<&str> = line.split(' ').collect();
    let number = |word: &str| word.parse().ok();
    Some((number(words[1])?, number(words.get(2)?)?))
}

fn with_offset(line: String, change: fn(u64) -> u64) -> String {
    match numbers(&line) {
        Some((size, offset)) => {
            let kind = if line.ends_with("NM") { " NM" } else { "" };
            format!("{} {size} {}{kind}", &line[..2], change(offset))
        }
        None => line,
    }
}

fn reserved_if(line: String, is_reserved: fn(u64, u64) -> bool) -> String {
    match numbers(&line) {
        Some((size, offset)) if is_reserved(size, offset) => format!("{} reserved", &line[..2]),
        _ => line,
    }
}
