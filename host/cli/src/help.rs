//! Help texts.

/// How a subcommand is used.
pub struct Help {
    /// The name of the subcommand.
    pub name: &'static str,
    /// Its operands and options.
    pub usage: &'static str,
    /// What it does, in a line.
    pub purpose: &'static str,
    /// What there is to know about it.
    pub text: &'static str,
}

const REQUESTS: &str = "\
REQUEST is one of:
  move DEVICE STATE         STATE is D0, D1, D2, D3hot or D3cold
  arm DEVICE SLEEP STATE    SLEEP is S0 to S4
  disarm DEVICE
  sleep SLEEP               sleep entry, for all devices; SLEEP is S1 to S4
for example: move 1 D2
";

/// All subcommands.
pub const ALL: [Help; 11] = [
    SHOW,
    DESCRIBE,
    WRITE,
    CONVERT,
    FRESH,
    PLAN,
    CHECK,
    TRACE,
    BRING_UP,
    CHECK_BRING_UP,
    DEMO,
];

/// `show`.
pub const SHOW: Help = Help {
    name: "show",
    usage: "TABLE",
    purpose: "show the resources and devices of a table",
    text: "\
TABLE is a power table of version 1 or 2, a file of raw bytes. Its version and size
are shown, and for each device the parent, the states it has, its methods, and the
resources it needs in each state.
",
};

/// `describe`.
pub const DESCRIBE: Help = Help {
    name: "describe",
    usage: "TABLE [-o FILE]",
    purpose: "print a table as text that can be edited and written back",
    text: "\
TABLE is a power table, a file of raw bytes. It has no names, so the resources
are named r0, r1 and so on, and the devices d0, d1 and so on. The text may be
given other names; sailgarnet write --help explains its lines. Keep a text with
other names: a table cannot give them back. The text names the version of the
table, and is written back as the same bytes.

  -o FILE    write the text to this file
",
};

/// `write`.
pub const WRITE: Help = Help {
    name: "write",
    usage: "FILE [--version N] -o TABLE",
    purpose: "write the table of a station that is given as text",
    text: "\
FILE is text. What it does not say is absent, and # begins a comment. Resources
and devices get their numbers in the order in which they stand.

  version 1
      At most 32 resources and 32 devices; or version 2, at most 64 of each.
  resource NAME level SLEEP order NUMBER
      It can be on down to SLEEP. NUMBER is 0 to 65535; lower is on earlier.
  device NAME
      The lines after it say what it has.
    parent NAME           a device that stands before it
    _PS0 _PS3 _DSW        its methods, of _PS0 to _PS3 and _DSW
    _PR0 NAME ..          the resources of _PR0, also none; so _PR1 to _PR3
    _PRW SLEEP NAME ..    the deepest SLEEP it can wake from, and the resources
    _S3D STATE            so _S1D to _S4D; D0 to D3hot
    _S3W STATE            so _S0W to _S4W; D0 to D3cold

SLEEP is S0 to S4, STATE is D0, D1, D2, D3hot or D3cold. A mistake in the text is
shown with its line and column. Nothing is written then, or if the station is
refused.

  --version N    write version N, 1 or 2, whichever of them the text names
  -o TABLE       the file to write
",
};

/// `convert`.
pub const CONVERT: Help = Help {
    name: "convert",
    usage: "TABLE --version N -o TABLE",
    purpose: "write a table in the other version",
    text: "\
The resources and devices stay as they are, with their numbers, so the same request
gives the same calls. Version 1 has at most 32 resources and 32 devices, version 2 at
most 64 of each; a table that does not fit is refused with 2. Converted back, it has
the same bytes.

A state has 132 bytes for version 1 and 264 for version 2, so the converted table
begins with a state of its own: sailgarnet fresh.

  --version N    the version to write, 1 or 2; a table that has it is copied
  -o TABLE       the file to write, another one than is read
",
};

/// `fresh`.
pub const FRESH: Help = Help {
    name: "fresh",
    usage: "TABLE -o STATE",
    purpose: "write the fresh state of a table",
    text: "\
In the fresh state every device is in D0 and not armed, and all resources are on.

  -o STATE    the file to write, 132 bytes, for a table of version 2 264
",
};

/// `plan`.
pub const PLAN: Help = Help {
    name: "plan",
    usage: "TABLE STATE REQUEST [-o STATE] [--list FILE]",
    purpose: "plan a request and show its method calls",
    text: "\
The calls are shown in the order in which they must be made. Nothing is written
without an option, or if the request is refused.

Sleep entry brings each device to the shallowest state that it may take, and the
calls are shown move by move. If no device moves, they switch off what is on and
not needed. A device may take a state
  that it supports, and that is not shallower than the present one or _SxD,
  in which it needs only resources that can be on in SLEEP,
  that is its wake state, if it is armed, and
  that is not shallower than the state its parent takes.
S0 is refused with 10. Answer 20 says which device is armed for another sleep state,
and answer 21 which device has no state to take, with what is against each.

  -o STATE       write the new state; it may be the file that was read
  --list FILE    write the calls, four bytes each
",
};

/// `check`.
pub const CHECK: Help = Help {
    name: "check",
    usage: "TABLE STATE REQUEST LIST",
    purpose: "check a list of method calls",
    text: "\
LIST is a file of calls, four bytes each. It conforms if it has exactly the
calls of the request, each once and in order. Else its faults, as trace has them,
and the planner's list are shown. STATE is the state before the request.

Sleep entry is refused with 10: a list is checked for one move at a time, as
  sailgarnet check TABLE STATE move DEVICE STATE LIST
from the state that the moves before it leave. plan shows the moves.
",
};

/// `trace`.
pub const TRACE: Help = Help {
    name: "trace",
    usage: "TABLE STATE REQUEST [LIST] [--svg FILE]",
    purpose: "show what is on after each call of a list",
    text: "\
Without LIST the planner's own list is traced. STATE is the state before the
request. A list that does not conform is traced too, and refused.

The grid has a row for each resource and a column for the start and for each
call. It says when some device needs the resource: before or after the request,
or both. The mark ! stands where a resource is off though needed before and after.
In a table with more than 16 resources, those that stay on or off have no row and are
named below the grid.

Faults are below the grid: words that are no call of the table, resources that
are off though needed, and resources that are on at the end though not needed.
A list without a fault may still not conform: a call may be missing, not be in
its place, or switch what is so already.

Sleep entry is traced without LIST, and refused with 10 with one, as by check. Each
move has its calls and a grid of its own; before and after are of the move. The
drawing has a band for each move, and bars where a resource must stay on.

  --svg FILE    draw the trace as a timing diagram, for a browser
",
};

/// `bring-up`.
pub const BRING_UP: Help = Help {
    name: "bring-up",
    usage: "TABLE STATE [--on RESOURCES] [-o STATE] [--list FILE] [--svg FILE]",
    purpose: "plan the switching at power-on, which makes a state consistent",
    text: "\
STATE has the devices as they were kept, and what is on. The calls switch on what
the devices need and is off, then switch off what is on and not needed; no method
of a device is called. Afterwards the devices are as before, and exactly what they
need is on, so that requests can be planned.

That resources are off is no reason to refuse a state. It is refused if a device
is in a state that it does not have, is shallower than its parent, is armed for a
wake pair that is not legal, or is deeper than its wake state. Nothing is written
then, or without an option.

  --on RESOURCES    what is on, as _STA reports it, such as r0,r2; none, or an
                    empty word, for nothing. Without it, what is on in STATE
  -o STATE          write the state afterwards; it may be the file that was read
  --list FILE       write the calls, four bytes each
  --svg FILE        draw the calls and what is on as a timing diagram, as trace
                    does; the mark ! stands where a needed resource is off
",
};

/// `check-bring-up`.
pub const CHECK_BRING_UP: Help = Help {
    name: "check-bring-up",
    usage: "TABLE STATE LIST [--on RESOURCES]",
    purpose: "check a list of method calls for a bring-up",
    text: "\
LIST is a file of calls, four bytes each. It conforms if it has exactly the calls
of the bring-up, each once and in order. Else its faults and the planner's list
are shown. STATE is the state before the bring-up, and refused as by bring-up.

  --on RESOURCES    what is on before the bring-up, as bring-up takes it
",
};

/// `demo`.
pub const DEMO: Help = Help {
    name: "demo",
    usage: "",
    purpose: "plan requests for a small station; reads and writes no file",
    text: "\
The station has a bus, a camera and a lamp, and three resources.
",
};

impl Help {
    /// The line that says how to write the subcommand.
    pub fn usage_line(&self) -> String {
        format!("sailgarnet {} {}", self.name, self.usage)
            .trim_end()
            .into()
    }

    /// Whether a request is among the operands.
    pub fn takes_request(&self) -> bool {
        self.usage.contains("REQUEST")
    }

    /// The whole help text.
    pub fn page(&self) -> String {
        let Self { purpose, text, .. } = self;
        let requests = if self.takes_request() {
            format!("\n{REQUESTS}")
        } else {
            String::new()
        };
        format!(
            "Usage: {}\n\nPurpose: {purpose}.\n\n{text}{requests}\n{EXIT_STATUS}",
            self.usage_line()
        )
    }
}

const EXIT_STATUS: &str = "\
Exit status: 0 done, 1 refused, 2 wrong usage, a mistake in a text, or a file that
cannot be read or written.
";

/// The help text of the command.
pub fn overview() -> String {
    let mut text = String::from(
        "sailgarnet plans the method calls that switch the power resources of a station.\n\n",
    );
    for help in ALL {
        text += &format!("  {}\n      {}\n", help.usage_line(), help.purpose);
    }
    format!(
        "{text}\n{REQUESTS}\nMore with: sailgarnet SUBCOMMAND --help\n\
         The planner in use: sailgarnet --version\n\n{EXIT_STATUS}"
    )
}
