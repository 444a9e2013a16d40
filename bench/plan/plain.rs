// The assembler as a plain loop, with nothing proved: `plain FILE TIMES` assembles the file so often, and prints what comes of it.
use std::collections::HashMap;

enum Form<'a> {
    Nothing,
    Program(u32),
    At(u32),
    Word(Value<'a>),
    Chars(&'a str),
    Order(&'static Row, u32, u32, Value<'a>),
}

enum Value<'a> {
    Number(u32),
    Label(&'a str),
}

struct Row {
    name: &'static str,
    x: Option<u32>,
    f: u32,
    adds: u32,
    most: Option<u32>,
    modified: bool,
}

const fn row(name: &'static str, x: Option<u32>, f: u32, adds: u32, most: Option<u32>, modified: bool) -> Row {
    Row { name, x, f, adds, most, modified }
}
const fn plain(name: &'static str, f: u32) -> Row {
    row(name, None, f, 0, Some(4095), true)
}
const fn of_x(name: &'static str, x: u32, f: u32) -> Row {
    row(name, Some(x), f, 0, Some(4095), true)
}
const fn jump(name: &'static str, f: u32) -> Row {
    row(name, None, f, 0, Some(32767), false)
}
const fn jump_of_x(name: &'static str, x: u32) -> Row {
    row(name, Some(x), 0o074, 0, Some(32767), false)
}
const fn shift(name: &'static str, f: u32, adds: u32) -> Row {
    row(name, None, f, adds, Some(1023), true)
}

static TABLE: [Row; 46] = [
    plain("LDX", 0o000), plain("ADX", 0o001), plain("NGX", 0o002), plain("SBX", 0o003), plain("STO", 0o010), plain("ADS", 0o011),
    plain("NGS", 0o012), plain("SBS", 0o013), plain("ANDX", 0o020), plain("ORX", 0o021), plain("ERX", 0o022), plain("LDCH", 0o024),
    plain("ANDS", 0o030), plain("ORS", 0o031), plain("ERS", 0o032), plain("DCH", 0o034), plain("MPY", 0o040), plain("LDN", 0o100),
    plain("ADN", 0o101), plain("NGN", 0o102), plain("SBN", 0o103), plain("ANDN", 0o120), plain("ORN", 0o121), plain("ERN", 0o122),
    plain("MOVE", 0o126), of_x("STOZ", 0, 0o033), of_x("PERI", 0, 0o157), of_x("SUSTY", 0, 0o160), of_x("DISTY", 1, 0o160),
    of_x("DELTY", 2, 0o160), row("NULL", Some(0), 0o123, 0, None, false), jump("BZE", 0o050), jump("BNZ", 0o052), jump("BPZ", 0o054),
    jump("BNG", 0o056), jump("CALL", 0o070), jump("EXIT", 0o072), jump_of_x("BRN", 0), jump_of_x("BVS", 1), jump_of_x("BVSR", 2),
    jump_of_x("BVC", 3), jump_of_x("BVCR", 4), shift("SLC", 0o110, 0), shift("SLL", 0o110, 1024), shift("SRC", 0o112, 0),
    shift("SRL", 0o112, 1024),
];

fn number(text: &str, most: u32) -> Option<u32> {
    let bytes = text.as_bytes();
    if bytes.is_empty() || bytes.len() > 1 && bytes[0] == b'0' || !bytes.iter().all(u8::is_ascii_digit) {
        return None;
    }
    text.parse().ok().filter(|n| *n <= most)
}

fn is_label(text: &str) -> bool {
    let bytes = text.as_bytes();
    !bytes.is_empty()
        && bytes.len() <= 8
        && bytes[0].is_ascii_uppercase()
        && bytes.iter().all(|b| b.is_ascii_uppercase() || b.is_ascii_digit())
}

fn value(text: &str, most: u32) -> Option<Value<'_>> {
    if is_label(text) { Some(Value::Label(text)) } else { number(text, most).map(Value::Number) }
}

fn only<'a>(mut words: impl Iterator<Item = &'a str>) -> Option<&'a str> {
    let word = words.next()?;
    if words.next().is_some() { None } else { Some(word) }
}

fn order<'a>(row: &'static Row, mut words: impl Iterator<Item = &'a str>) -> Option<Form<'a>> {
    let x = match row.x {
        Some(x) => x,
        None => match words.next()?.as_bytes() {
            [digit @ b'0'..=b'7'] => u32::from(digit - b'0'),
            _ => return None,
        },
    };
    if row.most.is_none() {
        return if words.next().is_some() { None } else { Some(Form::Order(row, x, 0, Value::Number(0))) };
    }
    let word = only(words)?;
    let (address, m) = match word.find('(') {
        None => (word, 0),
        Some(at) => match word[at..].as_bytes() {
            [b'(', digit @ b'1'..=b'3', b')'] if row.modified => (&word[..at], u32::from(digit - b'0')),
            _ => return None,
        },
    };
    Some(Form::Order(row, x, m, value(address, 1 << 24)?))
}

fn form_of(line: &str) -> Option<Form<'_>> {
    if !line.bytes().all(|b| (b' '..=b'~').contains(&b)) {
        return None;
    }
    let front = line.split(' ').next().unwrap_or("");
    if !front.is_empty() && !is_label(front) {
        return None;
    }
    let rest = &line[front.len()..];
    let mut words = rest.split(' ').filter(|word| !word.is_empty());
    let Some(name) = words.next() else {
        return Some(Form::Nothing);
    };
    match name {
        "CHARS" => {
            let text = rest.trim_matches(' ');
            if (7..=46).contains(&text.len()) { Some(Form::Chars(&text[6..])) } else { None }
        }
        "PROGRAM" if front.is_empty() => number(only(words)?, 32768).filter(|n| 32 <= *n).map(Form::Program),
        "AT" if front.is_empty() => number(only(words)?, 32767).map(Form::At),
        "WORD" => {
            let word = only(words)?;
            match word.strip_prefix('-') {
                Some(digits) => {
                    let n = number(digits, 1 << 23).filter(|n| 1 <= *n)?;
                    Some(Form::Word(Value::Number((1 << 24) - n)))
                }
                None => value(word, (1 << 24) - 1).map(Form::Word),
            }
        }
        _ => order(TABLE.iter().find(|row| row.name == name)?, words),
    }
}

fn code_of(byte: u8) -> u32 {
    u32::from(match byte {
        0x20..=0x2f => byte - 0x10,
        0x30..=0x3f => byte - 0x30,
        0x40..=0x5f => byte - 0x20,
        0x60..=0x7e => byte - 0x40,
        _ => 15,
    })
}

struct Line<'a> {
    form: Option<Form<'a>>,
    place: u32,
}

fn assemble(text: &str) -> Result<String, usize> {
    let mut lines = Vec::new();
    let mut labels: HashMap<&str, u32> = HashMap::new();
    let (mut place, mut size, mut all_blank) = (20u32, None, true);
    for line in text.strip_suffix('\n').unwrap_or(text).split('\n') {
        let front = line.split(' ').next().unwrap_or("");
        let mut form = form_of(line);
        let blank = line.bytes().all(|b| b == b' ');
        if !blank && all_blank != matches!(form, Some(Form::Program(_))) {
            form = None;
        }
        all_blank &= blank;
        if is_label(front) {
            if labels.contains_key(front) {
                form = None;
            } else {
                labels.insert(front, place);
            }
        }
        if let Some(Form::Program(n)) = form {
            size = size.or(Some(n));
        }
        lines.push(Line { place, form: None });
        place = match &form {
            Some(Form::At(to)) => *to,
            Some(Form::Word(_) | Form::Order(..)) => (place + 1).min(32768),
            Some(Form::Chars(text)) => (place + (text.len() as u32).div_ceil(4)).min(32768),
            _ => place,
        };
        lines.last_mut().unwrap().form = form;
    }
    let size = size.unwrap_or(0);
    let mut image: Vec<Option<u32>> = vec![None; size as usize];
    let mut end = 0;
    for (k, line) in lines.iter().enumerate() {
        let put = |image: &mut Vec<Option<u32>>, end: &mut usize, place: u32, word: u32| {
            let place = place as usize;
            match image.get_mut(place) {
                Some(cell @ None) => *cell = Some(word),
                _ => return false,
            }
            *end = (*end).max(place + 1);
            true
        };
        let resolved = |value: &Value| match value {
            Value::Number(n) => Some(*n),
            Value::Label(label) => labels.get(label).copied(),
        };
        let good = match &line.form {
            None => false,
            Some(Form::Nothing | Form::Program(_)) => true,
            Some(Form::At(to)) => *to < size,
            Some(Form::Word(value)) => resolved(value).is_some_and(|word| put(&mut image, &mut end, line.place, word)),
            Some(Form::Order(row, x, m, value)) => resolved(value)
                .filter(|a| row.most.is_none_or(|most| *a <= most))
                .is_some_and(|a| put(&mut image, &mut end, line.place, x << 21 | row.f << 14 | m << 12 | (a + row.adds))),
            Some(Form::Chars(text)) => text.as_bytes().chunks(4).enumerate().all(|(i, four)| {
                let word = (0..4).fold(0, |word, j| word << 6 | code_of(four.get(j).copied().unwrap_or(b' ')));
                put(&mut image, &mut end, line.place + i as u32, word)
            }),
        };
        if !good {
            return Err(k + 1);
        }
    }
    if size == 0 {
        return Err(1);
    }
    let mut file = String::with_capacity(9 * (end + 1));
    push_word(&mut file, size);
    for word in &image[..end] {
        push_word(&mut file, word.unwrap_or(0));
    }
    Ok(file)
}

fn push_word(file: &mut String, word: u32) {
    for k in (0..8).rev() {
        file.push(char::from(b'0' + (word >> (3 * k) & 7) as u8));
    }
    file.push('\n');
}

fn main() {
    let words: Vec<String> = std::env::args().collect();
    let text = std::fs::read_to_string(&words[1]).unwrap();
    let times: usize = words[2].parse().unwrap();
    let mut answer = Err(0);
    for _ in 0..times {
        answer = assemble(std::hint::black_box(&text));
    }
    match answer {
        Ok(file) => print!("{file}"),
        Err(line) => println!("BAD {line}"),
    }
}
