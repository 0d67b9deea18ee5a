//! The C functions and their safe forms. All unsafe code of the crate is here.

use crate::{Answer, Request};

mod c {
    unsafe extern "C" {
        pub fn sailgarnet_fresh(
            table: *const u8,
            table_len: usize,
            state: *mut u8,
            state_len: usize,
        ) -> u64;

        pub fn sailgarnet_plan(
            table: *const u8,
            table_len: usize,
            state: *mut u8,
            state_len: usize,
            kind: u32,
            device: u32,
            a: u32,
            b: u32,
            plan: *mut u8,
            plan_len: usize,
        ) -> u64;

        pub fn sailgarnet_check(
            table: *const u8,
            table_len: usize,
            state: *const u8,
            state_len: usize,
            kind: u32,
            device: u32,
            a: u32,
            b: u32,
            list: *const u8,
            list_len: usize,
        ) -> u64;

        pub fn sailgarnet_bring_up(
            table: *const u8,
            table_len: usize,
            state: *mut u8,
            state_len: usize,
            plan: *mut u8,
            plan_len: usize,
        ) -> u64;

        pub fn sailgarnet_check_bring_up(
            table: *const u8,
            table_len: usize,
            state: *const u8,
            state_len: usize,
            list: *const u8,
            list_len: usize,
        ) -> u64;

        pub fn sailgarnet_write(
            version: u32,
            resources: *const u8,
            resources_len: usize,
            devices: *const u8,
            devices_len: usize,
            table: *mut u8,
            table_len: usize,
        ) -> u64;

        pub fn sailgarnet_describe(
            table: *const u8,
            table_len: usize,
            resources: *mut u8,
            resources_len: usize,
            devices: *mut u8,
            devices_len: usize,
        ) -> u64;
    }
}

/// Writes the fresh state of a table into `state`: every device in D0 and not
/// armed, all resources on.
///
/// Gives 1 to 6 for the table, 7 if `state` does not have the bytes of a state with
/// this table ([`Version::state_bytes`](crate::Version::state_bytes)), else 0. A
/// refusal writes nothing.
///
/// ```
/// // A table without resources and devices.
/// let table = [b'P', b'W', b'T', 0, 1, 0, 0, 0];
/// let mut state = [1; sailgarnet::STATE_BYTES];
/// assert!(sailgarnet::fresh(&table, &mut state).is_done());
/// assert_eq!(state, [0; sailgarnet::STATE_BYTES]);
///
/// // One of version 2, with 40 resources.
/// let mut table = vec![b'P', b'W', b'T', 40, 2, 0, 0, 0];
/// table.resize(8 + 4 * 40, 0);
/// let mut state = [1; sailgarnet::Version::Two.state_bytes()];
/// assert!(sailgarnet::fresh(&table, &mut state).is_done());
/// assert_eq!(sailgarnet::on_set(&state), Some((1 << 40) - 1));
/// ```
#[inline]
pub fn fresh(table: &[u8], state: &mut [u8]) -> Answer {
    // SAFETY: each pointer is valid for its length, and a mutable borrow
    // overlaps no other.
    let packed = unsafe {
        c::sailgarnet_fresh(table.as_ptr(), table.len(), state.as_mut_ptr(), state.len())
    };
    Answer::unpack(packed)
}

/// Plans a request. The calls go to the first bytes of `plan`, four a call, and
/// the new state to `state`.
///
/// Gives 0 and the number of calls, or a refusal, which writes nothing: 1 to 18,
/// for sleep entry 1 to 10, 20 and 21. With a table of version 1 `plan` needs room
/// for 132 bytes, for sleep entry for 4224, with one of version 2 for 260 and 16640,
/// whatever the calls ([`Version::plan_bytes`](crate::Version::plan_bytes),
/// [`Version::sleep_plan_bytes`](crate::Version::sleep_plan_bytes)).
///
/// A sleep entry moves devices by falling number. The calls of each move are those
/// of a request for it alone, from the state that the moves before it leave, and
/// [`check`] judges them as such; sleep entry itself is 10 there. If no device has
/// to move, what is on and not needed goes off.
///
/// ```
/// use sailgarnet::{calls, fresh, plan, Request, Verdict, PLAN_BYTES, STATE_BYTES};
///
/// // One resource, and a device without any object.
/// let mut table = vec![b'P', b'W', b'T', 1, 1, 0, 1, 0, 4, 0, 0, 0];
/// table.extend([255, 0, 0, 0]);
/// table.extend([0; 20]);
/// table.extend([255; 9]);
/// table.extend([0; 7]);
/// let mut state = [0; STATE_BYTES];
/// assert!(fresh(&table, &mut state).is_done());
///
/// // Nothing needs the resource, so the first request switches it off.
/// let mut buffer = [0; PLAN_BYTES];
/// let answer = plan(&table, &mut state, Request::move_to(0, 3), &mut buffer);
/// assert_eq!(answer.verdict(), Some(Verdict::Done));
/// assert_eq!(buffer[..answer.plan_length()], [2, 0, 0, 0]);
///
/// // The device has no D1.
/// let answer = plan(&table, &mut state, Request::move_to(0, 1), &mut buffer);
/// assert_eq!(answer.verdict(), Some(Verdict::Unsupported));
/// ```
///
/// Sleep entry:
///
/// ```
/// use sailgarnet::{fresh, plan, Request, SLEEP_PLAN_BYTES, STATE_BYTES};
///
/// // A resource that is off in every sleep state, and a device that needs it in
/// // D0 and nothing in D3hot.
/// let mut table = vec![b'P', b'W', b'T', 1, 1, 0, 1, 0, 0, 0, 0, 0];
/// table.extend([255, 0b1001, 0b1001, 0]);
/// table.extend([0b1, 0, 0, 0]);
/// table.extend([0; 16]);
/// table.extend([255; 9]);
/// table.extend([0; 7]);
/// let mut state = [0; STATE_BYTES];
/// assert!(fresh(&table, &mut state).is_done());
///
/// // The device goes to D3hot with its method _PS3, then its supply off.
/// let mut buffer = [0; SLEEP_PLAN_BYTES];
/// let answer = plan(&table, &mut state, Request::sleep(1), &mut buffer);
/// assert_eq!(buffer[..answer.plan_length()], [3, 0, 3, 0, 2, 0, 0, 0]);
/// assert_eq!((state[0], state[128]), (3, 0));
/// ```
#[inline]
pub fn plan(table: &[u8], state: &mut [u8], request: Request, plan: &mut [u8]) -> Answer {
    let Request { kind, device, a, b } = request;
    // SAFETY: each pointer is valid for its length, and a mutable borrow
    // overlaps no other.
    let packed = unsafe {
        c::sailgarnet_plan(
            table.as_ptr(),
            table.len(),
            state.as_mut_ptr(),
            state.len(),
            kind,
            device,
            a,
            b,
            plan.as_mut_ptr(),
            plan.len(),
        )
    };
    Answer::unpack(packed)
}

/// Says whether `list`, four bytes a call, conforms to a request. It writes
/// nothing.
///
/// Gives 0, or a refusal: 1 to 8 and 10 to 18 as the planner gives them, 19 if
/// the request is permitted and the list does not conform. Sleep entry is 10.
#[inline]
pub fn check(table: &[u8], state: &[u8], request: Request, list: &[u8]) -> Answer {
    let Request { kind, device, a, b } = request;
    // SAFETY: each pointer is valid for its length, and nothing is written.
    let packed = unsafe {
        c::sailgarnet_check(
            table.as_ptr(),
            table.len(),
            state.as_ptr(),
            state.len(),
            kind,
            device,
            a,
            b,
            list.as_ptr(),
            list.len(),
        )
    };
    Answer::unpack(packed)
}

/// Plans the switching at power-on: `state` has the entries that the board kept
/// and the resources that are on as `_STA` reports them. The calls go to the first
/// bytes of `plan`, four a call: `_ON` of what is needed and off, then `_OFF` of
/// what is on and not needed. The state keeps its entries, and exactly what they
/// need is on in it afterwards.
///
/// Gives 0 and the number of calls, or a refusal, which writes nothing: 1 to 7 as
/// for a request; 8 for the lowest device that is in a state which it does not
/// have, shallower than its parent, armed for a wake pair that is not legal, or
/// deeper than its wake state, whatever is on; 9 if `plan` has less than 132 bytes,
/// with a table of version 2 less than 260.
///
/// ```
/// use sailgarnet::{bring_up, check_bring_up, on_set, set_on};
/// use sailgarnet::{Verdict, PLAN_BYTES, STATE_BYTES};
///
/// // Two resources, and a device that needs resource 0 in D0 and in D3hot.
/// let mut table = vec![b'P', b'W', b'T', 2, 1, 0, 1, 0, 4, 0, 0, 0, 4, 0, 0, 0];
/// table.extend([255, 0, 0b1, 0]);
/// table.extend([0b1, 0, 0, 0]);
/// table.extend([0; 16]);
/// table.extend([255; 9]);
/// table.extend([0; 7]);
///
/// // The device was in D0, and resource 1 alone is on.
/// let mut reported = [0; STATE_BYTES];
/// assert!(set_on(&mut reported, 0b10));
/// let (mut state, mut buffer) = (reported, [0; PLAN_BYTES]);
/// let answer = bring_up(&table, &mut state, &mut buffer);
/// assert_eq!(answer.verdict(), Some(Verdict::Done));
/// let list = &buffer[..answer.plan_length()];
/// assert_eq!(list, [1, 0, 0, 0, 2, 1, 0, 0]);
/// assert_eq!(on_set(&state), Some(0b01));
/// assert!(check_bring_up(&table, &reported, list).is_done());
///
/// // The device has no D3cold.
/// state[0] = 4;
/// let answer = bring_up(&table, &mut state, &mut buffer);
/// assert_eq!(answer.verdict(), Some(Verdict::Inconsistent));
/// ```
#[inline]
pub fn bring_up(table: &[u8], state: &mut [u8], plan: &mut [u8]) -> Answer {
    // SAFETY: each pointer is valid for its length, and a mutable borrow
    // overlaps no other.
    let packed = unsafe {
        c::sailgarnet_bring_up(
            table.as_ptr(),
            table.len(),
            state.as_mut_ptr(),
            state.len(),
            plan.as_mut_ptr(),
            plan.len(),
        )
    };
    Answer::unpack(packed)
}

/// Says whether `list`, four bytes a call, conforms to the bring-up of `state`,
/// which is the one before it. It writes nothing.
///
/// Gives 0, or a refusal: 1 to 8 as [`bring_up`] gives them, 19 if the list does
/// not conform.
#[inline]
pub fn check_bring_up(table: &[u8], state: &[u8], list: &[u8]) -> Answer {
    // SAFETY: each pointer is valid for its length, and nothing is written.
    let packed = unsafe {
        c::sailgarnet_check_bring_up(
            table.as_ptr(),
            table.len(),
            state.as_ptr(),
            state.len(),
            list.as_ptr(),
            list.len(),
        )
    };
    Answer::unpack(packed)
}

/// Writes the table of described resources and devices, of four and 54 bytes
/// each, to the first bytes of `table`. The bytes past it are left as they were.
///
/// Gives 0 and the table's length in bytes, or a refusal, which writes nothing:
/// 1 if `version` is neither 1 nor 2, 2 for more than 32 records of a kind in
/// version 1 and 64 in version 2, 9 if `table` is too short, then 4, 5 and 6 as for a
/// table that has these records. A record that is cut short counts, and is refused
/// with 4 or 5.
///
/// ```
/// use sailgarnet::{write, Device, Resource, Verdict, MAX_TABLE_BYTES};
///
/// // A lamp that needs resource 0 in D0 and nothing in D3hot.
/// let supply = Resource { system_level: 0, order: 2 };
/// let lamp = Device { pr_mask: 0b1001, sets: [0b1, 0, 0, 0, 0], ..Device::default() };
/// let mut table = [0; MAX_TABLE_BYTES];
/// let answer = write(1, &supply.to_bytes(), &lamp.to_bytes(), &mut table);
/// assert_eq!(answer.verdict(), Some(Verdict::Done));
/// assert_eq!(answer.bytes_written(), 8 + 4 + 40);
/// assert_eq!(table[..12], [b'P', b'W', b'T', 1, 1, 0, 1, 0, 0, 0, 2, 0]);
///
/// // There is no resource 1.
/// let lamp = Device { sets: [0b10, 0, 0, 0, 0], ..lamp };
/// let answer = write(1, &supply.to_bytes(), &lamp.to_bytes(), &mut table);
/// assert_eq!(answer.verdict(), Some(Verdict::BadDevice));
/// ```
///
/// Version 2 has room for more:
///
/// ```
/// use sailgarnet::{write, Device, Resource, Verdict, Version};
///
/// // A lamp that needs the last of 47 resources in D0.
/// let supplies = Resource { system_level: 0, order: 2 }.to_bytes().repeat(47);
/// let lamp = Device { pr_mask: 0b1001, sets: [1 << 46, 0, 0, 0, 0], ..Device::default() };
/// let mut table = [0; Version::Two.max_table_bytes()];
/// let answer = write(1, &supplies, &lamp.to_bytes(), &mut table);
/// assert_eq!(answer.verdict(), Some(Verdict::TooMany));
/// let answer = write(2, &supplies, &lamp.to_bytes(), &mut table);
/// assert_eq!(answer.bytes_written(), 8 + 4 * 47 + 64);
/// assert_eq!(Version::of_table(&table), Some(Version::Two));
/// ```
#[inline]
pub fn write(version: u32, resources: &[u8], devices: &[u8], table: &mut [u8]) -> Answer {
    // SAFETY: each pointer is valid for its length, and a mutable borrow
    // overlaps no other.
    let packed = unsafe {
        c::sailgarnet_write(
            version,
            resources.as_ptr(),
            resources.len(),
            devices.as_ptr(),
            devices.len(),
            table.as_mut_ptr(),
            table.len(),
        )
    };
    Answer::unpack(packed)
}

/// Writes what a table describes: its resources, four bytes each, to the first
/// bytes of `resources`, and its devices, 54 bytes each, to the first bytes of
/// `devices`. The bytes past them are left as they were.
///
/// Gives 0 and the number of bytes in both lists, or a refusal, which writes
/// nothing: 1 to 6 for the table, then 9 if a buffer is too short.
///
/// The lists are the same for both versions, so a table is turned into one of the
/// other version by describing it and writing what it describes.
///
/// ```
/// use sailgarnet::{describe, devices, write, Device, Verdict, MAX_TABLE_BYTES};
///
/// // No resource, and a device without any object.
/// let mut table = vec![b'P', b'W', b'T', 0, 1, 0, 1, 0];
/// table.extend([255, 0, 0, 0]);
/// table.extend([0; 20]);
/// table.extend([255; 9]);
/// table.extend([0; 7]);
/// let mut list = [0; Device::BYTES];
/// let answer = describe(&table, &mut [], &mut list);
/// assert_eq!(answer.verdict(), Some(Verdict::Done));
/// assert_eq!(answer.bytes_written(), Device::BYTES);
/// assert!(devices(&list).eq([Device::default()]));
///
/// // What is described writes back as the same table.
/// let mut buffer = [0; MAX_TABLE_BYTES];
/// let answer = write(1, &[], &list, &mut buffer);
/// assert_eq!(buffer[..answer.bytes_written()], table);
///
/// // The same device in a table of version 2 describes the same list.
/// let answer = write(2, &[], &list, &mut buffer);
/// let mut other = [0; Device::BYTES];
/// assert!(describe(&buffer[..answer.bytes_written()], &mut [], &mut other).is_done());
/// assert_eq!(other, list);
/// ```
#[inline]
pub fn describe(table: &[u8], resources: &mut [u8], devices: &mut [u8]) -> Answer {
    // SAFETY: each pointer is valid for its length, and a mutable borrow
    // overlaps no other.
    let packed = unsafe {
        c::sailgarnet_describe(
            table.as_ptr(),
            table.len(),
            resources.as_mut_ptr(),
            resources.len(),
            devices.as_mut_ptr(),
            devices.len(),
        )
    };
    Answer::unpack(packed)
}
