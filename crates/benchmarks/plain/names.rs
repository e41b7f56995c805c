//! Names of classes, class descriptors and their fields, terminals and bits: the tables below `testdata/explain`, read once.

use std::sync::LazyLock;

#[derive(Clone, Copy)]
pub enum Form {
    Index,
    Interval,
    Guid,
    Terminal(u8),
    Bits(usize),
    Hex,
    Dec,
    Bcd,
    Type,
}

pub struct Field {
    pub name: &'static str,
    pub form: Form,
    pub size: usize,
}

pub struct Row {
    codes: [Option<u8>; 3],
    kind: u8,
    body: [Option<u8>; 2],
    /// Where a byte is that is 0.
    zero: Option<usize>,
    pub name: &'static str,
    pub fields: Vec<Field>,
    pub group: Vec<Field>,
}

struct Names {
    /// By class: what has a name, by its other codes.
    classes: [Vec<(Vec<u8>, &'static str)>; 256],
    /// By class, and last those of no interface.
    rows: Vec<Vec<&'static Row>>,
    terminals: Vec<((u8, u16), &'static str)>,
    bits: Vec<(String, Vec<&'static str>)>,
}

static NAMES: LazyLock<Names> = LazyLock::new(|| {
    let bits = read_bits(include_str!("../../../testdata/explain/bits.txt"));
    let rows = read_rows(include_str!("../../../testdata/explain/descriptors.txt"), &bits);
    let classes = read_classes(include_str!("../../../testdata/explain/classes.txt"));
    let terminals = read_terminals(include_str!("../../../testdata/explain/terminals.txt"));
    Names { classes, rows, terminals, bits }
});

fn code(word: &str) -> Option<u8> {
    (word.len() == 2).then(|| u8::from_str_radix(word, 16).ok()).flatten()
}

fn read_classes(text: &'static str) -> [Vec<(Vec<u8>, &'static str)>; 256] {
    let mut classes = [const { Vec::new() }; 256];
    for line in text.lines() {
        let (mut codes, mut rest) = (Vec::new(), line);
        while let Some((word, more)) = rest.split_once(' ')
            && let Some(number) = code(word)
            && codes.len() < 3
        {
            codes.push(number);
            rest = more;
        }
        if let Some((class, others)) = codes.split_first() {
            classes[usize::from(*class)].push((others.to_vec(), rest));
        }
    }
    classes
}

fn read_terminals(text: &'static str) -> Vec<((u8, u16), &'static str)> {
    let mut names: Vec<_> = text
        .lines()
        .filter_map(|line| {
            let (class, rest) = line.split_once(' ')?;
            let (number, name) = rest.split_once(' ')?;
            Some(((code(class)?, u16::from_str_radix(number, 16).ok()?), name))
        })
        .collect();
    names.sort();
    names
}

fn read_bits(text: &'static str) -> Vec<(String, Vec<&'static str>)> {
    let mut names: Vec<(String, Vec<&'static str>)> = Vec::new();
    for line in text.lines() {
        match (line.strip_prefix("# "), names.last_mut()) {
            (Some(head), _) => {
                let name = head.split(" - ").next().unwrap_or(head);
                names.push((name.replace(' ', "_"), Vec::new()));
            }
            (None, Some((_, bits))) => bits.push(line),
            (None, None) => {}
        }
    }
    names
}

fn read_field(text: &'static str, bits: &[(String, Vec<&'static str>)]) -> Option<Field> {
    let (name, word) = text.split_once(':')?;
    let word = word.trim_end_matches("=0");
    let plain = word.trim_end_matches(|c: char| c.is_ascii_digit());
    let number = word[plain.len()..].parse().unwrap_or(0);
    let (form, size) = match plain {
        "index" => (Form::Index, 1),
        "interval" => (Form::Interval, 4),
        "guid" => (Form::Guid, 16),
        "audio_terminal" => (Form::Terminal(1), 2),
        "video_terminal" => (Form::Terminal(14), 2),
        "bcd" => (Form::Bcd, 2),
        "hex" => (Form::Hex, number),
        "dec" => (Form::Dec, number),
        "type" => (Form::Type, number),
        other => (Form::Bits(bits.iter().position(|it| it.0 == other)?), 1),
    };
    Some(Field { name, form, size })
}

fn read_row(line: &'static str, bits: &[(String, Vec<&'static str>)]) -> Option<Row> {
    let mut parts = line.split('|');
    let head = parts.next()?.trim_end();
    let mut words = head.splitn(7, ' ');
    let mut next = || words.next().map(code);
    let codes = [next()?, next()?, next()?];
    let kind = next()??;
    let body = [next()?, next()?];
    let fields = |part: &'static str| part.split_whitespace().filter_map(|it| read_field(it, bits)).collect();
    let name = words.next()?;
    let (own, group) = (parts.next()?, parts.next()?);
    let own_fields: Vec<Field> = fields(own);
    let zero = own.split_whitespace().position(|it| it.ends_with("=0"));
    let zero = zero.map(|count| 2 + own_fields[..count].iter().map(|it| it.size).sum::<usize>());
    Some(Row { codes, kind, body, zero, name, fields: own_fields, group: fields(group) })
}

fn read_rows(text: &'static str, bits: &[(String, Vec<&'static str>)]) -> Vec<Vec<&'static Row>> {
    let lines = text.lines().filter(|line| !line.starts_with('#'));
    let rows: &[Row] = lines.filter_map(|line| read_row(line, bits)).collect::<Vec<_>>().leak();
    let of_class = |class| rows.iter().filter(|row| row.codes[0].is_none() || row.codes[0] == class).collect();
    (0..=255).map(Some).chain([None]).map(of_class).collect()
}

/// The name of a class, of a subclass of it or of a protocol, by so many codes.
pub fn class_name(codes: &[u8]) -> Option<&'static str> {
    let (class, others) = codes.split_first()?;
    NAMES.classes[usize::from(*class)].iter().find(|it| it.0 == others).map(|it| it.1)
}

pub fn terminal_name(class: u8, number: u16) -> Option<&'static str> {
    let place = NAMES.terminals.binary_search_by_key(&(class, number), |it| it.0).ok()?;
    Some(NAMES.terminals[place].1)
}

pub fn bit_names(place: usize) -> &'static [&'static str] {
    &NAMES.bits[place].1
}

/// The first row that applies to a descriptor of an interface of these codes.
pub fn row_of(item: &[u8], codes: Option<[u8; 3]>) -> Option<&'static Row> {
    let rows = &NAMES.rows[codes.map_or(256, |it| usize::from(it[0]))];
    rows.iter().copied().find(|row| {
        row.kind == item[1]
            && (0..2).all(|at| row.body[at].is_none_or(|it| item.get(2 + at) == Some(&it)))
            && row.zero.is_none_or(|at| item.get(at) == Some(&0))
            && (1..3).all(|at| row.codes[at].is_none_or(|it| codes.is_some_and(|codes| codes[at] == it)))
    })
}
