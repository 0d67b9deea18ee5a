//! Tables and texts of many stations, described and written back.

use cases::{first_resources, Record, Resource, Rng, Station, SHAPES};
use reference::Version;

use crate::desk::Desk;

const EXAMPLE: &str = include_str!("../../../../examples/station.txt");
const LINE: &str = include_str!("../../../../examples/double-camera.txt");

/// Describes a table and writes the text back: the bytes are the same. So is the
/// text of what was written. It is given.
fn goes_both_ways(desk: &Desk, table: &[u8]) -> String {
    desk.write("table", table);
    let text = desk.run("describe table").done();
    desk.write("text", text.as_bytes());
    desk.run("write text -o new").done();
    assert_eq!(desk.read("new"), table, "{text}");
    assert_eq!(desk.run("describe new").done(), text);
    text
}

/// The words of each line, without comments.
fn words(text: &str) -> Vec<Vec<&str>> {
    let lines = text
        .lines()
        .map(|line| line.split('#').next().unwrap_or(line));
    let lines = lines.map(|line| line.split_whitespace().collect());
    lines
        .filter(|words: &Vec<&str>| !words.is_empty())
        .collect()
}

#[test]
fn the_example_comes_back_with_other_names() {
    let desk = Desk::new("stations_example");
    desk.write("text", EXAMPLE.as_bytes());
    desk.run("write text -o new").done();
    let text = desk.run("describe new").done();
    let names = [("bus", "d0"), ("camera", "d1"), ("lamp", "d2")];
    let mut expected = words(EXAMPLE);
    for word in expected.iter_mut().flatten() {
        if let Some((_, name)) = names.iter().find(|(own, _)| own == word) {
            *word = name;
        }
    }
    assert_eq!(words(&text), expected);
}

fn station(resources: usize, devices: Vec<Record>) -> Station {
    let resource = |r: usize| Resource {
        level: (r % 5) as u8,
        order: [0, 1, 255, 256, 65_535][r % 5],
    };
    Station {
        resources: (0..resources).map(resource).collect(),
        devices,
    }
}

#[test]
fn stations_of_every_size_go_both_ways() {
    let desk = Desk::new("stations_sizes");
    for version in Version::ALL {
        let limit = version.limit();
        for (resources, devices) in [
            (0, 0),
            (0, 1),
            (0, limit),
            (1, 0),
            (limit - 1, 1),
            (limit, 0),
            (limit, limit),
        ] {
            let devices = vec![Record::default(); devices];
            let table = station(resources, devices).table(version);
            let text = goes_both_ways(&desk, &table);
            assert_eq!(text.matches("\nresource ").count(), resources);
            assert!(text.contains(&format!("\nversion {}\n", version.number())));
        }
    }
}

#[test]
fn sets_that_are_there_go_both_ways() {
    let desk = Desk::new("stations_sets");
    for version in Version::ALL {
        let (limit, last) = (version.limit(), version.limit() - 1);
        let all = first_resources(limit);
        for devices in devices_with_sets(1 | 1 << last, all).chunks(limit) {
            let station = station(limit, devices.to_vec());
            let text = goes_both_ways(&desk, &station.table(version));
            let both = format!("\n  _PR0 r0 r{last}\n");
            assert!(text.contains("\n  _PR0\n") && text.contains(&both));
        }
    }
}

/// Devices of every shape, whose sets are empty or this one, and those of `_PRW`
/// what is left of all.
fn devices_with_sets(set: u64, all: u64) -> Vec<Record> {
    let devices = SHAPES.into_iter().flat_map(|(ps, pr)| {
        [0, set].map(|set| {
            let there = |x: u8| if pr >> x & 1 != 0 { set } else { 0 };
            Record {
                ps,
                pr,
                flags: 3,
                sets: [there(0), there(1), there(2), there(3), all & !set],
                ..Record::default()
            }
        })
    });
    devices.collect()
}

#[test]
fn sleep_states_go_both_ways() {
    let desk = Desk::new("stations_sleep");
    let values = |last: u8| (0..=last).chain([255]);
    let pairs = values(3).flat_map(|sxd| values(4).map(move |sxw| (sxd, sxw)));
    let devices = pairs.filter(|(sxd, sxw)| sxd <= sxw || *sxd == 255);
    let devices: Vec<Record> = devices
        .enumerate()
        .map(|(i, (sxd, sxw))| Record {
            flags: 1,
            sxd: [sxd; 4],
            sxw: [sxw; 5],
            deepest: (i % 5) as u8,
            ..Record::default()
        })
        .collect();
    assert_eq!(devices.len(), 24);
    let station = station(0, devices);
    goes_both_ways(&desk, &station.table(Version::Two));
    let text = goes_both_ways(&desk, &station.table(Version::One));
    for line in ["_S1D D0", "_S4D D3hot", "_S0W D0", "_S4W D3cold", "_PRW S4"] {
        assert!(text.contains(&format!("\n  {line}\n")), "{line}");
    }
}

#[test]
fn random_stations_go_both_ways() {
    let desk = Desk::new("stations_random");
    let mut rng = Rng::new(11);
    for _ in 0..50 {
        for version in Version::ALL {
            let station = Station::random(&mut rng, version);
            goes_both_ways(&desk, &station.table(version));
        }
    }
}

/// The text with other names, spacing and comments, and with the lines of each
/// device in another order.
fn respelt(rng: &mut Rng, text: &str) -> String {
    let mut lines: Vec<&str> = text.lines().collect();
    for block in lines.chunk_by_mut(|_, next| next.starts_with("  ")) {
        for i in 2..block.len() {
            block.swap(i, 1 + rng.below(i));
        }
    }
    let mut text = String::new();
    for line in lines {
        for word in line.split(' ').filter(|word| !word.is_empty()) {
            text += rng.pick(&[" ", "  ", "\t"]);
            text += &match word.strip_prefix(['r', 'd']) {
                Some(number) if number.parse::<u8>().is_ok() => format!("{number}-{word}"),
                _ if rng.one_in(2) => word.to_lowercase(),
                _ => word.into(),
            };
        }
        text += rng.pick(&["\n", "\r\n", " # comment\n", "#\n\n"]);
    }
    text
}

#[test]
fn names_spacing_and_comments_do_not_matter() {
    let desk = Desk::new("stations_respelt");
    let mut rng = Rng::new(12);
    for version in [Version::One, Version::Two].repeat(30) {
        let table = Station::random(&mut rng, version).table(version);
        desk.write("table", &table);
        let text = desk.run("describe table").done();
        let text = respelt(&mut rng, &text);
        desk.write("text", text.as_bytes());
        desk.run("write text -o new").done();
        assert_eq!(desk.read("new"), table, "{text}");
    }
}

/// Leaves a line out, copies one to another place, cuts the text, or changes or
/// leaves out a byte.
fn damage(rng: &mut Rng, text: &mut Vec<u8>) {
    if text.is_empty() {
        return;
    }
    let lines: Vec<&[u8]> = text.split_inclusive(|&byte| byte == b'\n').collect();
    let (i, j) = (rng.below(lines.len()), rng.below(lines.len()));
    let at = rng.below(text.len());
    match rng.below(8) {
        0 | 1 => *text = [&lines[..i], &lines[i + 1..]].concat().concat(),
        2 | 3 => *text = [&lines[..i], &lines[j..=j], &lines[i..]].concat().concat(),
        4 => text.truncate(at + 1),
        5 => drop(text.remove(at)),
        _ => text[at] = rng.pick(b" \n#,0123459_DSPRWdhr\xff\0"),
    }
}

/// The line that a mistake in `text` is said to be in.
fn line_of_mistake(error: &str) -> Option<usize> {
    let position = error.strip_prefix("text:")?;
    position.split(':').next()?.parse().ok()
}

/// Any text is written, refused, or has a mistake in one of its lines.
#[test]
fn damaged_texts_are_answered() {
    let desk = Desk::new("stations_damaged");
    let mut rng = Rng::new(13);
    let mut statuses = [0; 3];
    for example in [EXAMPLE, LINE].repeat(200) {
        let mut text = example.as_bytes().to_vec();
        for _ in 0..=rng.below(3) {
            damage(&mut rng, &mut text);
        }
        desk.write("text", &text);
        desk.write("new", b"as it was");
        let run = desk.run("write text -o new");
        statuses[run.status as usize] += 1;
        if run.status == 0 {
            goes_both_ways(&desk, &desk.read("new"));
            continue;
        }
        assert_eq!(desk.read("new"), b"as it was");
        if run.status == 1 {
            assert!(run.output.starts_with("Answer ") && run.output.contains("\ntext:"));
        } else {
            let lines = text.split(|&byte| byte == b'\n').count();
            let line = line_of_mistake(&run.error).expect("a position");
            assert!((1..=lines).contains(&line), "{run:?}");
        }
    }
    assert!(statuses.iter().all(|&count| count > 10), "{statuses:?}");
}
