//! Reads the text of a station, whose format is in docs/STATION-TEXT.md.
//!
//! What is wrong with the words is a mistake here. Whether the station that they
//! say keeps the rules is for the planner to answer.

use sailgarnet::{Answer, Device, Place, Resource, Verdict, Version, NONE};

use crate::line::{characters, lines, Line, Mistake, Rest, Word};
use crate::objects::{self, LISTS, METHODS, PRW, SLEEP};
use crate::request::{device_state, sleep_state};
use crate::words;

/// A station that was read, and the words of the text that name its parts.
pub struct Text<'a> {
    /// The number of the version of the table to write.
    pub version: u32,
    version_word: Word<'a>,
    /// The resources.
    pub resources: Vec<Resource>,
    /// The devices.
    pub devices: Vec<Device>,
    names: Names<'a>,
    /// The line of the first resource after the last device, which it ended.
    ended_in: Option<usize>,
}

const VERSION_FIRST: &str =
    "a station begins with the line version 1 or version 2; only comments may stand before it";

/// Reads a text, or gives its first mistake.
pub fn read(bytes: &[u8]) -> Result<Text<'_>, Mistake> {
    let characters = characters(bytes)?;
    let mut lines = lines(characters);
    let first = lines.next();
    let Line { first, mut rest } = first.ok_or_else(|| Mistake::at_start(VERSION_FIRST))?;
    if !first.is("version") {
        return Err(first.mistake(VERSION_FIRST));
    }
    let version_word = rest.expect("the version")?;
    let mut text = Text {
        version: version(version_word)?,
        version_word,
        resources: Vec::new(),
        devices: Vec::new(),
        names: Names::of(characters),
        ended_in: None,
    };
    rest.end()?;
    for line in lines {
        text.add(line)?;
    }
    Ok(text)
}

impl<'a> Text<'a> {
    fn add(&mut self, mut line: Line<'a>) -> Result<(), Mistake> {
        let first = line.first;
        if first.is("version") {
            return Err(first.mistake("the version is given twice"));
        } else if first.is("resource") {
            self.add_resource(&mut line.rest)?;
        } else if first.is("device") {
            self.add_device(&mut line.rest)?;
        } else {
            self.add_part(&mut line)?;
        }
        line.rest.end()
    }

    fn add_resource(&mut self, rest: &mut Rest) -> Result<(), Mistake> {
        let name = rest.expect("the name of the resource")?;
        must_be_first(&self.names.resources, "resource", name)?;
        rest.expect_word("level")?;
        let system_level = sleep(rest)?;
        rest.expect_word("order")?;
        let order = order(rest)?;
        self.resources.push(Resource {
            system_level,
            order,
        });
        self.ended_in.get_or_insert(name.line());
        Ok(())
    }

    fn add_device(&mut self, rest: &mut Rest) -> Result<(), Mistake> {
        let name = rest.expect("the name of the device")?;
        must_be_first(&self.names.devices, "device", name)?;
        self.devices.push(Device::default());
        self.ended_in = None;
        Ok(())
    }

    /// Adds what a line says of the last device.
    fn add_part(&mut self, line: &mut Line) -> Result<(), Mistake> {
        let first = line.first;
        let Some(part) = Part::begun_by(first) else {
            return Err(first.mistake(format!(
                "{} begins no line; lines begin with resource, device, parent, _PS0 to _PS3, _DSW, \
                 _PR0 to _PR3, _PRW, _S1D to _S4D or _S0W to _S4W",
                first.quoted()
            )));
        };
        let in_device = self.ended_in.is_none();
        let Some(device) = self.devices.last_mut().filter(|_| in_device) else {
            return Err(self.outside_device(first));
        };
        match part {
            Part::Parent => set_parent(device, &self.names, line),
            Part::Methods => add_methods(device, line),
            Part::List(place) => add_list(device, place, &self.names, line),
            Part::Sleep(place) => set_state(device, place, line),
        }
    }

    /// The mistake of a line that belongs to a device where none is begun.
    fn outside_device(&self, first: Word) -> Mistake {
        let last = self.names.devices[..self.devices.len()].last();
        let reason = match (self.ended_in, last) {
            (Some(line), Some(name)) => {
                let name = words::shown(name.text);
                format!("the resource in line {line} ended device {name}")
            }
            _ => "no device is begun here".into(),
        };
        first.mistake(format!(
            "{} belongs to a device, and {reason}",
            first.quoted()
        ))
    }

    /// Has the table written in another version than the text says, unless the text
    /// says an unknown one.
    pub fn write_as(&mut self, version: Version) {
        if Version::from_number(self.version).is_some() {
            self.version = version.number();
        }
    }

    /// What a refusal means, where the sentence of the number speaks of what a text
    /// cannot have.
    pub fn refusal_sentence(&self, answer: Answer) -> Option<String> {
        match answer.verdict()? {
            Verdict::NotATable => Some("the version of the table is neither 1 nor 2.".into()),
            Verdict::TooMany => {
                let most = Version::from_number(self.version)?.max_resources();
                Some(format!(
                    "there are more than {most} resources or more than {most} devices."
                ))
            }
            Verdict::BadDevice => {
                Some("a line of this device has a value that is not allowed.".into())
            }
            _ => None,
        }
    }

    /// The part of the text that a refusal is about, and where it stands.
    pub fn refused_part(&self, answer: Answer) -> Mistake {
        let Names { resources, devices } = &self.names;
        let record = |kind: &str, names: &[Word], reason: &str| {
            let name = names[answer.place as usize];
            let text = words::shown(name.text);
            name.mistake(format!("{kind} {} is {text}{reason}", answer.place))
        };
        match answer.verdict().map(|verdict| (verdict, verdict.place())) {
            Some((Verdict::NotATable, _)) => {
                let message = format!("the version is {}", self.version);
                self.version_word.mistake(message)
            }
            Some((Verdict::BadDevice, _)) => {
                record("device", devices, &self.bad_field(answer.place as usize))
            }
            Some((_, Place::Device)) => record("device", devices, ""),
            Some((_, Place::Resource)) => record("resource", resources, ""),
            _ => self.counts(),
        }
    }

    /// How many records the text has, at the first one too many, and whether they fit
    /// into another version.
    fn counts(&self) -> Mistake {
        let resources = words::count(self.names.resources.len(), "resource");
        let devices = words::count(self.names.devices.len(), "device");
        let hint = match self.first_beyond(Version::Two) {
            None => "; with --version 2 there is room for 64 of each",
            Some(_) => "",
        };
        let message = format!("the text has {resources} and {devices}{hint}");
        let version = Version::from_number(self.version);
        match version.and_then(|version| self.first_beyond(version)) {
            Some(name) => name.mistake(message),
            None => Mistake::at_start(message),
        }
    }

    /// The name of the first record that a version has no room for.
    fn first_beyond(&self, version: Version) -> Option<Word<'a>> {
        let Names { resources, devices } = &self.names;
        let resource = resources.get(version.max_resources());
        resource.or(devices.get(version.max_devices())).copied()
    }

    /// What is bad in the fields of a device: the first of what a text can say
    /// wrong in them.
    fn bad_field(&self, place: usize) -> String {
        let Device {
            parent, sxd, sxw, ..
        } = self.devices[place];
        if parent != NONE && usize::from(parent) >= place {
            return "; its parent must stand before it".into();
        }
        for (x, (sxd, sxw)) in (1..).zip(sxd.into_iter().zip(sxw.into_iter().skip(1))) {
            if sxd == D3COLD {
                return format!("; its _S{x}D is at most D3hot");
            }
            if sxd != NONE && sxd > sxw {
                return format!("; its _S{x}D must not be deeper than its _S{x}W");
            }
        }
        String::new()
    }
}

const D3COLD: u8 = 4;

/// The names that a text gives, by number.
struct Names<'a> {
    resources: Vec<Word<'a>>,
    devices: Vec<Word<'a>>,
}

impl<'a> Names<'a> {
    /// The names in a text, whether or not it is right in all else. So a name may
    /// be used before the line that gives it.
    fn of(text: &'a str) -> Self {
        let named = |kind: &str| {
            let lines = lines(text).filter(|line| line.first.is(kind));
            lines.filter_map(|mut line| line.rest.take()).collect()
        };
        Self {
            resources: named("resource"),
            devices: named("device"),
        }
    }
}

/// The number of the resource or device with this name.
fn number(names: &[Word], kind: &str, word: Word) -> Result<usize, Mistake> {
    word.must_be_name()?;
    let found = names.iter().position(|name| name.text == word.text);
    found.ok_or_else(|| {
        let known: Vec<String> = names.iter().map(|name| words::shown(name.text)).collect();
        let known = match known.is_empty() {
            true => "none".into(),
            false => known.join(", "),
        };
        let word_shown = word.quoted();
        word.mistake(format!(
            "there is no {kind} {word_shown}; the text has {known}"
        ))
    })
}

/// Checks that a word is a name, and that no line before gives it.
fn must_be_first(names: &[Word], kind: &str, word: Word) -> Result<(), Mistake> {
    word.must_be_name()?;
    let first = names.iter().find(|name| name.text == word.text);
    match first.map_or(word.line(), |name| name.line()) {
        line if line < word.line() => Err(word.mistake(format!(
            "{} is the name of a {kind} already, in line {line}",
            word.quoted()
        ))),
        _ => Ok(()),
    }
}

/// What a line says of a device.
enum Part {
    Parent,
    Methods,
    List(usize),
    Sleep(usize),
}

impl Part {
    fn begun_by(word: Word) -> Option<Self> {
        if word.is("parent") {
            return Some(Part::Parent);
        }
        let methods = word.place_in(&METHODS).map(|_| Part::Methods);
        let list = || word.place_in(&LISTS).map(Part::List);
        let sleep = || word.place_in(&SLEEP).map(Part::Sleep);
        methods.or_else(list).or_else(sleep)
    }
}

fn set_parent(device: &mut Device, names: &Names, line: &mut Line) -> Result<(), Mistake> {
    must_be_new(device.parent == NONE, line.first)?;
    let word = line.rest.expect("the name of the parent")?;
    let parent = number(&names.devices, "device", word)?;
    // So many devices that a byte cannot count them are refused whatever this is.
    device.parent = u8::try_from(parent).unwrap_or(NONE);
    Ok(())
}

fn add_methods(device: &mut Device, line: &mut Line) -> Result<(), Mistake> {
    let mut next = Some(line.first);
    while let Some(word) = next {
        let Some(place) = word.place_in(&METHODS) else {
            let methods = METHODS.join(" ");
            let word_shown = word.quoted();
            return Err(word.mistake(format!(
                "{word_shown} is no method; the methods are {methods}"
            )));
        };
        must_be_new(!objects::has_method(device, place), word)?;
        objects::add_method(device, place);
        next = line.rest.take();
    }
    Ok(())
}

fn add_list(
    device: &mut Device,
    place: usize,
    names: &Names,
    line: &mut Line,
) -> Result<(), Mistake> {
    must_be_new(!objects::has_list(device, place), line.first)?;
    if place == PRW {
        device.deepest = sleep(&mut line.rest)?;
    }
    let set = set(&names.resources, &mut line.rest)?;
    objects::add_list(device, place, set);
    Ok(())
}

fn set_state(device: &mut Device, place: usize, line: &mut Line) -> Result<(), Mistake> {
    let object = objects::sleep(device, place);
    must_be_new(*object == NONE, line.first)?;
    let word = line.rest.expect("the device state")?;
    *object = device_state(word.text).map_err(|message| word.mistake(message))?;
    Ok(())
}

/// What a word says must not have been said of the device before.
fn must_be_new(new: bool, word: Word) -> Result<(), Mistake> {
    match new {
        true => Ok(()),
        false => Err(word.mistake(format!("{} is given twice for this device", word.quoted()))),
    }
}

/// The set of the resources that the rest of a line names.
fn set(names: &[Word], rest: &mut Rest) -> Result<u64, Mistake> {
    let mut listed = Vec::new();
    while let Some(word) = rest.take() {
        let resource = number(names, "resource", word)?;
        if listed.contains(&resource) {
            return Err(word.mistake(format!("{} is listed twice", word.quoted())));
        }
        listed.push(resource);
    }
    // A station with more resources than bits is refused whatever it lists.
    let bit = |&r: &usize| 1u64.checked_shl(r as u32).unwrap_or(0);
    Ok(listed.iter().map(bit).sum())
}

fn sleep(rest: &mut Rest) -> Result<u8, Mistake> {
    let word = rest.expect("the sleep state")?;
    sleep_state(word.text).map_err(|message| word.mistake(message))
}

fn order(rest: &mut Rest) -> Result<u16, Mistake> {
    let word = rest.expect("the order")?;
    word.number().ok_or_else(|| {
        let message = format!("{} is no order; write 0 to 65535", word.quoted());
        word.mistake(message)
    })
}

fn version(word: Word) -> Result<u32, Mistake> {
    word.number().ok_or_else(|| {
        let message = format!("{} is no version; write 1 or 2", word.quoted());
        word.mistake(message)
    })
}

#[cfg(test)]
mod tests {
    use super::read;
    use sailgarnet::Answer;

    /// A text cannot say a bad resource today, so no text is answered 4.
    #[test]
    fn a_refused_resource_is_named() {
        let text = b"version 1\nresource a level S0 order 0\nresource b level S4 order 9";
        let text = read(text).expect("a text without mistakes");
        let refused = text.refused_part(Answer::unpack(4 | 1 << 24));
        assert_eq!(refused.to_string(), "3:10: resource 1 is b");
    }
}
