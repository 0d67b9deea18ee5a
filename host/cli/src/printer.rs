//! Prints a described station as the text that `reader` reads.

use std::fmt::Write;

use sailgarnet::{devices, resources, Device, Resource, Version, NONE};

use crate::objects::{has_list, has_method, LISTS, METHODS, PRW, SLEEP};
use crate::words::device_state;

/// The text of a station that is described by two lists, for a table of this
/// version. Resources are named r0, r1 and so on, devices d0, d1 and so on.
pub fn text(version: Version, resource_list: &[u8], device_list: &[u8]) -> String {
    let version = version.number();
    let mut text = format!("# sailgarnet write --help explains these lines\nversion {version}\n");
    if !resource_list.is_empty() {
        text.push('\n');
    }
    for (r, resource) in resources(resource_list).flatten().enumerate() {
        let Resource {
            system_level,
            order,
        } = resource;
        let _ = writeln!(text, "resource r{r} level S{system_level} order {order}");
    }
    for (d, device) in devices(device_list).enumerate() {
        let _ = writeln!(text, "\ndevice d{d}");
        for line in lines(&device) {
            let _ = writeln!(text, "  {line}");
        }
    }
    text
}

/// The lines of a device.
fn lines(device: &Device) -> Vec<String> {
    let mut lines = Vec::new();
    if device.parent != NONE {
        lines.push(format!("parent d{}", device.parent));
    }
    let methods = (0..METHODS.len()).filter(|&i| has_method(device, i));
    let methods: Vec<&str> = methods.map(|i| METHODS[i]).collect();
    if !methods.is_empty() {
        lines.push(methods.join(" "));
    }
    let lists = (0..LISTS.len()).filter(|&i| has_list(device, i));
    lines.extend(lists.map(|i| list(device, i)));
    for (object, &state) in SLEEP.iter().zip(device.sxd.iter().chain(&device.sxw)) {
        if state != NONE {
            lines.push(format!("{object} {}", device_state(state)));
        }
    }
    lines
}

fn list(device: &Device, place: usize) -> String {
    let mut line = String::from(LISTS[place]);
    if place == PRW {
        let _ = write!(line, " S{}", device.deepest);
    }
    for r in (0..u64::BITS).filter(|r| device.sets[place] >> r & 1 != 0) {
        let _ = write!(line, " r{r}");
    }
    line
}
