//! texts COMMAND [FATES] < FILE: what the crate makes of the bytes; a fault on standard error, as `usbdesc` says it.
use nozzlegorse::{
    build, check, configurations, descriptors, enumerate, explain, from_text, remarks, show, with_strings, Fault, Options,
    Speed,
};
use std::io::{stdin, stdout, Read, Write};

fn walk(bytes: &[u8]) -> String {
    let line = |it: nozzlegorse::Descriptor| {
        let (class, subclass, protocol) = it.codes();
        let (role, owner, part) = (it.role() as u8, it.owner().map_or(0, |it| it as u8), it.part() as u8);
        let (place, length, depth, set, setting) = (it.place(), it.bytes().len(), it.depth(), it.set(), it.setting());
        let (endpoint, interface, alternate, language, index) =
            (it.endpoint_number(), it.interface(), it.alternate(), it.language(), it.index());
        let field = |f: nozzlegorse::Field| {
            assert_eq!(it.field(f.name()), it.fields().find(|other| other.name() == f.name()));
            format!(" {}={}+{}:{}", f.name(), f.place(), f.width(), f.value())
        };
        let endpoint_numbers = it
            .endpoint()
            .map_or([0; 4], |e| [e.attributes().into(), e.max_packet_size(), e.transactions().into(), e.interval().into()]);
        let [attributes, packet, transactions, interval] = endpoint_numbers;
        let fields: String = it.fields().map(field).collect();
        format!("{place} {length} {role} {depth} {owner} {part} {set} {setting} {endpoint} {interface} {alternate} ")
            + &format!("{class} {subclass} {protocol} {language} {index} ")
            + &format!("{attributes} {packet} {transactions} {interval}{fields}\n")
    };
    let found = |it: nozzlegorse::Found| {
        let kind = if it.kind == nozzlegorse::FoundKind::Set { 1 } else { 4 };
        format!("found {} {} {kind}\n", it.place, it.bytes.len())
    };
    descriptors(bytes).map(line).chain(nozzlegorse::find(bytes).map(found)).collect()
}

/// A line for each configuration and each setting, interface after interface.
fn tree(bytes: &[u8]) -> String {
    let mut lines = String::new();
    let places = |it: &nozzlegorse::Descriptor| it.extras().map(|it| format!(" {}", it.place())).collect::<String>();
    for configuration in configurations(bytes) {
        lines += &format!("{:?} {}:{}\n", configuration.part(), configuration.value(), places(&configuration));
        for setting in configuration.interfaces().flat_map(|it| it.alternates()) {
            let endpoint = |it: nozzlegorse::Endpoint| format!(" {:02x}{}", it.address(), places(&it));
            let endpoints: String = setting.endpoints().map(endpoint).collect();
            lines += &format!("{}.{}:{}{endpoints}\n", setting.interface(), setting.alternate(), places(&setting));
        }
    }
    lines
}

fn made(command: &str, fates: &str, bytes: &[u8]) -> Result<Vec<u8>, Fault> {
    let how = Options {
        brief: command == "brief",
        no_places: command == "noplaces",
        utf8: command == "utf8",
        formats: command == "formats",
        loose: command == "fragment",
        hex: command == "hex",
        speed: (command == "high").then_some(Speed::High),
    };
    Ok(match command {
        "show-" => show(bytes)?.into(),
        "check" => check(bytes)?.iter().map(|it| format!("{} V{}\n", it.place, it.rule)).collect::<String>().into(),
        "remarks" => remarks(bytes, Some(Speed::High))?.iter().map(|it| format!("{it}\n")).collect::<String>().into(),
        "build" | "build-" => build(bytes, command == "build-")?,
        "text" => from_text(bytes)?,
        "with_strings" => with_strings(bytes)?,
        "walk" => walk(bytes).into(),
        "tree" => tree(bytes).into(),
        "enumerate" => {
            let it = enumerate(bytes, Speed::Full, 16, 3, fates.as_bytes())?;
            format!("{it}\n{}", it.read.as_deref().unwrap_or("")).into()
        }
        _ => {
            let (text, fault) = explain(bytes, how);
            stdout().write_all(text.as_bytes()).unwrap();
            return fault.map_or(Ok(Vec::new()), Err);
        }
    })
}

fn main() {
    let (mut words, mut bytes) = (std::env::args().skip(1), Vec::new());
    stdin().read_to_end(&mut bytes).unwrap();
    match made(&words.next().unwrap(), &words.next().unwrap_or_default(), &bytes) {
        Ok(text) => stdout().write_all(&text).unwrap(),
        Err(fault) => eprintln!("{fault}"),
    }
}
