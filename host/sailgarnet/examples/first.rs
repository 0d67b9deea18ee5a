//! W1 on the bench station: the camera goes to D2.

use sailgarnet::{calls, fresh, plan, Request, PLAN_BYTES, STATE_BYTES};

fn main() {
    let table = std::fs::read("examples/station.pwt").expect("the bench station");
    let (mut state, mut list) = ([0; STATE_BYTES], [0; PLAN_BYTES]);
    println!("{}", fresh(&table, &mut state));
    let answer = plan(&table, &mut state, Request::move_to(1, 2), &mut list);
    println!("{answer}");
    for call in calls(&list[..answer.plan_length()]).flatten() {
        println!("{call:?}");
    }
}
