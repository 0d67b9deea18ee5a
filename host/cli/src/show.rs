//! A table in words.

use std::fmt::Write;

use reference::{numbers, wake_range, Device, Entry, Table};

use crate::commands::disagreement;
use crate::words::{device_state, resources, table_size, DEVICE_STATES};
use crate::Failure;

/// The text of a table that the planner found good.
pub fn table(bytes: &[u8]) -> Result<String, Failure> {
    let table = Table::read(bytes).map_err(disagreement)?;
    let mut text = table_size(bytes);
    if table.resource_count() > 0 {
        text += "\nResource  can be on down to  order\n";
    }
    for r in 0..table.resource_count() {
        let (level, order) = (table.system_level(r), table.resource_order(r));
        let _ = writeln!(text, "{:<8}  S{level:<16}  {order:>5}", format!("r{r}"));
    }
    for d in 0..table.device_count() {
        text += &device(&table, d);
    }
    Ok(text)
}

fn device(table: &Table, d: usize) -> String {
    let device = table.device(d);
    let parent = match device.parent() {
        Some(parent) => format!("parent device {parent}"),
        None => "no parent".into(),
    };
    let mut text = format!("\nDevice {d}, {parent}\n");
    let mut line = |name: &str, value: &str| {
        let _ = writeln!(text, "  {name:<16}  {value}");
    };
    line("objects", &objects(device));
    for state in 0..5 {
        if device.supports(state) {
            let name = format!("needs in {}", device_state(state));
            line(&name, &resources(device.needs(not_armed(state))));
        }
    }
    if device.has_prw() {
        line("needs for wake", &resources(device.prw_set()));
        for s in 0..=device.deepest_sleep() {
            line(&format!("wake from S{s}"), &wake(table, device, s));
        }
    }
    text
}

fn not_armed(state: u8) -> Entry {
    Entry {
        state,
        armed: false,
        wake_s: 0,
        wake_d: 0,
    }
}

/// The names of the objects a device has.
fn objects(device: Device) -> String {
    let mut names = Vec::new();
    for (mask, object) in [(device.ps_mask(), "_PS"), (device.pr_mask(), "_PR")] {
        names.extend(numbers(mask.into()).map(|x| format!("{object}{x}")));
    }
    for (present, object) in [(device.has_prw(), "_PRW"), (device.has_dsw(), "_DSW")] {
        if present {
            names.push(object.into());
        }
    }
    for x in 0..5 {
        for (value, letter) in [(device.sxd(x), 'D'), (device.sxw(x), 'W')] {
            if let Some(state) = value {
                names.push(format!("_S{x}{letter}={}", device_state(state)));
            }
        }
    }
    match names.is_empty() {
        true => "none".into(),
        false => names.join(" "),
    }
}

/// From which device states a device can wake the system from S.
fn wake(table: &Table, device: Device, s: u8) -> String {
    if let Some(r) = numbers(device.prw_set()).find(|&r| table.system_level(r) < s) {
        return format!("not possible, since r{r} is off in S{s}");
    }
    let Some((first, last)) = wake_range(device.sxd(s), device.sxw(s)) else {
        return match s {
            0 => "not possible, since _S0W is absent".into(),
            _ => format!("not possible, since _S{s}D and _S{s}W are absent"),
        };
    };
    let states: Vec<&str> = (first..=last)
        .filter(|&state| device.supports(state))
        .map(|state| DEVICE_STATES[usize::from(state)])
        .collect();
    match states.is_empty() {
        true => "not possible, since no state in the range is supported".into(),
        false => format!("in {}", states.join(", ")),
    }
}
