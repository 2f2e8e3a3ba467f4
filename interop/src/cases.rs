//! The cases: what either end does, and how it has to end.

use crate::kernel::KernelCounts;
use crate::own::{Counts, End, Plan, Role};
use crate::wire::{
    ACK_RATIO, Addresses, NumberedFeature, Path, SEQUENCE_WINDOW, Speaker, WireTotals,
};
use dccp::{Feature, Place};
use std::time::Duration;

/// How a case ended, at both ends and on the wire.
#[derive(Debug)]
pub struct Outcome {
    pub own: Counts,
    pub kernel: KernelCounts,
    /// What our end sent.
    pub sent: WireTotals,
    /// What the kernel's end sent.
    pub came: WireTotals,
    /// Which end sent the first packet with data, and which the last.
    pub speakers: Option<(Speaker, Speaker)>,
}

pub struct Case {
    pub name: &'static str,
    pub path: Path,
    pub plan: Plan,
    /// The words of the helper, if the kernel has an end.
    pub kernel: Option<String>,
    /// How long the helper may go on after our end is done.
    pub patience: Duration,
    /// What is wrong, or nothing.
    pub verdict: fn(&Case, &Outcome) -> Vec<String>,
}

/// The Service Code of both ends, unless a case has another.
const SERVICE: u32 = 42;

/// What our end offers. A client of Linux that lists several CCIDs, as it does unless a program says otherwise, asks nobody for the Ack Vectors
/// that its CCID 2 needs, so our server offers them.
fn offers(role: Role) -> Vec<(Feature, Place, Vec<u64>)> {
    let window = (Feature::SequenceWindow, Place::Here, vec![10_000]);
    match role {
        Role::Client => vec![window],
        Role::Server | Role::Nobody => vec![window, (Feature::SendAckVector, Place::Here, vec![1])],
    }
}

fn plan(role: Role) -> Plan {
    Plan {
        role,
        service: SERVICE,
        port: 40_000,
        first: 1 << 40,
        send: 2_000,
        size: 100,
        expect: 2_000,
        after: 0,
        end: End::Closes,
        serves_again: false,
        offers: offers(role),
        prefers: Vec::new(),
        reads: Vec::new(),
        keeps_ack_ratio: false,
        limit: Duration::from_secs(60),
    }
}

/// A transfer both ways, our end in this role, which closes.
fn transfer(
    name: &'static str,
    role: Role,
    addresses: Addresses,
    loss: u64,
    size: usize,
    packets: u32,
) -> Case {
    let family = match addresses {
        Addresses::V4 => "4",
        Addresses::V6 => "6",
    };
    let end = match role {
        Role::Client => "server 5001".to_string(),
        Role::Server | Role::Nobody => format!("client {} 5001", addresses.own()),
    };
    // Our end gives up first, so that what it has sent is heard.
    let wait: u64 = if loss < 20 { 58 } else { 500 };
    Case {
        name,
        path: Path {
            addresses,
            loss,
            lost_reset: None,
        },
        plan: Plan {
            size,
            send: packets,
            expect: packets,
            limit: Duration::from_secs(wait - 3),
            ..plan(role)
        },
        kernel: Some(format!(
            "{end} family {family} send {packets} size {size} wait {wait} close peer"
        )),
        patience: Duration::from_secs(wait + 12),
        verdict: carried,
    }
}

/// The same over IPv4 without loss, whose words and plan a case changes.
fn clean(
    name: &'static str,
    role: Role,
    packets: u32,
    words: &str,
    change: impl FnOnce(&mut Plan),
) -> Case {
    let mut case = transfer(name, role, Addresses::V4, 0, 100, packets);
    change(&mut case.plan);
    case.kernel = case.kernel.map(|it| format!("{it} {words}"));
    case
}

/// Our usual end, which only answers: the kernel sends three packets and closes before a timer of ours runs out. Such a capture can be played
/// again to one end by `dccp replay`.
fn brief(name: &'static str, role: Role, words: &str) -> Case {
    let mut case = transfer(name, role, Addresses::V4, 0, 20, 3);
    case.plan = Plan {
        send: 0,
        first: if role == Role::Client { 1_000 } else { 2_000 },
        end: End::Waits,
        offers: Vec::new(),
        ..case.plan
    };
    case.kernel = Some(format!("{words} send 3 size 20 wait 10 close own quiet 5"));
    case
}

fn reads_what_the_kernel_asks(plan: &mut Plan) {
    plan.reads = vec![
        (Feature::SequenceWindow, Place::There),
        (Feature::AckRatio, Place::There),
    ];
}

fn unless(holds: bool, fault: impl FnOnce() -> String) -> Option<String> {
    (!holds).then(fault)
}

/// Each packet with data that the wire carried was taken once and whole at the other end, and the connection was open.
fn all_was_taken(outcome: &Outcome) -> Vec<String> {
    let Outcome {
        own,
        kernel,
        sent,
        came,
        speakers: _,
    } = outcome;
    let ours = sent.data - sent.lost_data;
    let theirs = came.data - came.lost_data;
    [
        unless(own.was_open, || "our end was never OPEN".to_string()),
        unless(own.received == theirs, || {
            format!("our end took {} of {theirs}", own.received)
        }),
        unless(kernel.received == ours, || {
            format!("the kernel took {} of {ours}", kernel.received)
        }),
        unless(own.sent == sent.data, || {
            format!("{} of ours went out, not {}", sent.data, own.sent)
        }),
        unless(
            own.repeated + own.strange + kernel.repeated + kernel.strange == 0,
            || "data were repeated or altered".to_string(),
        ),
    ]
    .into_iter()
    .flatten()
    .collect()
}

/// All was sent, and what the wire carried was taken. Where nothing is lost the two ends closed.
fn carried(case: &Case, outcome: &Outcome) -> Vec<String> {
    let mut faults = all_was_taken(outcome);
    faults.extend(unless(outcome.own.sent == case.plan.send, || {
        format!("our end sent {}", outcome.own.sent)
    }));
    faults.extend(unless(outcome.kernel.sent == case.plan.expect, || {
        format!("the kernel sent {}", outcome.kernel.sent)
    }));
    if case.path.loss == 0 {
        faults.extend(unless(outcome.own.ended == Some(1), || {
            format!("our end ended by {:?}", outcome.own.ended)
        }));
        faults.extend(unless(
            outcome.kernel.end == "closed" || outcome.kernel.end == "own",
            || format!("the kernel's ended by {}", outcome.kernel.end),
        ));
    }
    faults
}

/// The data went one way first, and then the other.
fn spoke(case: &Case, outcome: &Outcome, first: Speaker, last: Speaker) -> Vec<String> {
    let mut faults = carried(case, outcome);
    faults.extend(unless(outcome.speakers == Some((first, last)), || {
        format!("first and last spoke {:?}", outcome.speakers)
    }));
    faults
}

fn we_spoke_first(case: &Case, outcome: &Outcome) -> Vec<String> {
    spoke(case, outcome, Speaker::Own, Speaker::Kernel)
}

fn the_kernel_spoke_first(case: &Case, outcome: &Outcome) -> Vec<String> {
    spoke(case, outcome, Speaker::Kernel, Speaker::Own)
}

/// The first wish of our end is settled at this value.
fn settled(outcome: &Outcome, place: usize, value: u64) -> Option<String> {
    let held = outcome.own.features.get(place).copied();
    unless(held == Some((value, true)), || {
        format!("the feature is {held:?}, not {value}")
    })
}

fn carried_and_wished(case: &Case, outcome: &Outcome) -> Vec<String> {
    let mut faults = carried(case, outcome);
    for (place, (_, _, values)) in case.plan.prefers.iter().enumerate() {
        faults.extend(settled(outcome, place, values[0]));
    }
    faults
}

/// The kernel asked for another Sequence Window and another Ack Ratio while the connection was open; our end confirmed each, and holds the last.
fn kernel_asked(case: &Case, outcome: &Outcome) -> Vec<String> {
    let mut faults = carried(case, outcome);
    for (place, feature) in [SEQUENCE_WINDOW, ACK_RATIO].into_iter().enumerate() {
        let is_it = |it: &&NumberedFeature| it.feature == feature;
        let changes: Vec<&NumberedFeature> = outcome.came.changes.iter().filter(is_it).collect();
        let Some(last) = changes.last() else {
            faults.push(format!("the kernel never asked for feature {feature}"));
            continue;
        };
        let confirmed = |it: &&NumberedFeature| outcome.sent.confirms.contains(it);
        faults.extend(unless(changes.iter().all(confirmed), || {
            format!("our end did not confirm all of {changes:?}")
        }));
        faults.extend(settled(outcome, place, last.value));
    }
    faults
}

/// Linux answers no Change of a value from a list once a connection is open: our end stays where it was, and data go on.
fn carried_and_unanswered(case: &Case, outcome: &Outcome) -> Vec<String> {
    let mut faults = carried(case, outcome);
    let held = outcome.own.features.first().copied();
    faults.extend(unless(held == Some((2, false)), || {
        format!("the feature is {held:?}")
    }));
    faults
}

/// Linux has no short sequence numbers, so the feature stays 0.
fn short_is_refused(case: &Case, outcome: &Outcome) -> Vec<String> {
    let mut faults = carried(case, outcome);
    faults.extend(settled(outcome, 0, 0));
    faults
}

fn aborted_by_us(_: &Case, outcome: &Outcome) -> Vec<String> {
    let mut faults = all_was_taken(outcome);
    faults.extend(unless(outcome.sent.reset == Some(2), || {
        format!("our Reset is {:?}", outcome.sent.reset)
    }));
    faults.extend(unless(
        matches!(outcome.kernel.end.as_str(), "fault" | "closed"),
        || format!("the kernel's end: {}", outcome.kernel.end),
    ));
    faults
}

fn aborted_by_the_kernel(_: &Case, outcome: &Outcome) -> Vec<String> {
    let mut faults = all_was_taken(outcome);
    faults.extend(unless(
        outcome.came.reset.is_some() && outcome.own.ended == outcome.came.reset,
        || {
            format!(
                "its Reset is {:?}, our end ended by {:?}",
                outcome.came.reset, outcome.own.ended
            )
        },
    ));
    faults
}

/// The kernel answers our Request by a Reset of code 3: nobody serves the port.
fn nobody_serves_there(_: &Case, outcome: &Outcome) -> Vec<String> {
    let ended = outcome.own.ended;
    unless(ended == Some(3) && !outcome.own.was_open, || {
        format!("our end ended by {ended:?}")
    })
    .into_iter()
    .collect()
}

/// A Reset with this code of ours ends the kernel's attempt.
fn turned_away(outcome: &Outcome, code: u8) -> Vec<String> {
    [
        unless(outcome.sent.reset == Some(code), || {
            format!("our Reset is {:?}", outcome.sent.reset)
        }),
        unless(
            outcome.kernel.received + outcome.kernel.sent == 0 && outcome.kernel.end != "time",
            || format!("the kernel's end: {}", outcome.kernel.end),
        ),
    ]
    .into_iter()
    .flatten()
    .collect()
}

fn other_service_here(_: &Case, outcome: &Outcome) -> Vec<String> {
    turned_away(outcome, 8)
}

fn nobody_serves_here(_: &Case, outcome: &Outcome) -> Vec<String> {
    turned_away(outcome, 3)
}

fn other_service_there(_: &Case, outcome: &Outcome) -> Vec<String> {
    let ended = outcome.own.ended;
    unless(ended == Some(8) && !outcome.own.was_open, || {
        format!("our end ended by {ended:?}")
    })
    .into_iter()
    .collect()
}

/// CCID 3 alone shares nothing with our lists: one end or the other ends the connection.
fn nothing_shared(_: &Case, outcome: &Outcome) -> Vec<String> {
    let resets = (outcome.sent.reset, outcome.came.reset);
    unless(resets.0.is_some() || resets.1.is_some(), || {
        "no Reset ended it".to_string()
    })
    .into_iter()
    .collect()
}

/// Without our offer, the packets of a client of Linux with several CCIDs stay where its first window ends.
fn stays_at_its_first_window(_: &Case, outcome: &Outcome) -> Vec<String> {
    let mut faults = all_was_taken(outcome);
    faults.extend(unless(outcome.kernel.sent < 20, || {
        format!("the kernel sent {}", outcome.kernel.sent)
    }));
    faults
}

/// Our end refuses the features that the kernel insists on for CCID 3, of which it knows none: a Reset of code 6.
fn insisted_on(_: &Case, outcome: &Outcome) -> Vec<String> {
    unless(outcome.sent.reset == Some(6), || {
        format!("our Reset is {:?}", outcome.sent.reset)
    })
    .into_iter()
    .collect()
}

/// The kernel's old end answers each Request by a Sync, and takes no Reset of ours: it stays until it gives up.
fn met_by_its_old_end(_: &Case, outcome: &Outcome) -> Vec<String> {
    [
        unless(!outcome.own.was_open, || "our end was OPEN".to_string()),
        unless(
            outcome.came.syncs > 0 && outcome.sent.reset == Some(4),
            || format!("{} Syncs came", outcome.came.syncs),
        ),
    ]
    .into_iter()
    .flatten()
    .collect()
}

/// Our end forgot its connection, and answers the kernel's next packet by a Reset of code 3, which ends the kernel's connection.
fn forgotten_by_us(_: &Case, outcome: &Outcome) -> Vec<String> {
    [
        unless(outcome.own.was_open, || {
            "our end was never OPEN".to_string()
        }),
        unless(outcome.sent.reset == Some(3), || {
            format!("our Reset is {:?}", outcome.sent.reset)
        }),
        unless(
            matches!(outcome.kernel.end.as_str(), "fault" | "closed"),
            || format!("the kernel's end: {}", outcome.kernel.end),
        ),
    ]
    .into_iter()
    .flatten()
    .collect()
}

/// The kernel forgot its connection, and answers our next packet by a Reset of code 3, which ends ours.
fn forgotten_by_the_kernel(_: &Case, outcome: &Outcome) -> Vec<String> {
    let ended = outcome.own.ended;
    unless(outcome.own.was_open && ended == Some(3), || {
        format!("our end ended by {ended:?}")
    })
    .into_iter()
    .collect()
}

/// Our old end answers the Request of the new connection by Syncs, until the kernel's Reset ends it (RFC 4340, section 7.5.6); all data of both
/// connections were taken.
fn met_by_our_old_end(_: &Case, outcome: &Outcome) -> Vec<String> {
    let mut faults = all_was_taken(outcome);
    faults.extend(unless(
        outcome.sent.syncs > 0 && outcome.came.reset == Some(4) && outcome.own.ended == Some(1),
        || {
            format!(
                "{} Syncs of ours, the kernel's Reset {:?}, our end ended by {:?}",
                outcome.sent.syncs, outcome.came.reset, outcome.own.ended
            )
        },
    ));
    faults
}

/// Our end vanished; the next case looks at its successor's connection.
fn left(_: &Case, outcome: &Outcome) -> Vec<String> {
    unless(outcome.own.was_open, || {
        "our end was never OPEN".to_string()
    })
    .into_iter()
    .collect()
}

/// Every case. Each client of ours has its own port, so that no end of the case before is still there, except where that is the case.
pub fn every() -> Vec<Case> {
    let mut cases = listed();
    let keep = [
        "brief-as-client",
        "we-vanish",
        "we-come-again-from-that-port",
    ];
    for (port, case) in (40_100..).zip(&mut cases) {
        if !keep.contains(&case.name) {
            case.plan.port = port;
        }
    }
    cases
}

fn listed() -> Vec<Case> {
    use Addresses::{V4, V6};
    use Role::{Client, Server};
    vec![
        brief("brief-as-client", Client, "server 5001"),
        brief(
            "brief-as-server",
            Server,
            "client 10.9.0.1 5001 port 40000 ccid 2",
        ),
        transfer("client", Client, V4, 0, 100, 2_000),
        transfer("server", Server, V4, 0, 100, 2_000),
        transfer("client-5%", Client, V4, 5, 100, 2_000),
        transfer("server-5%", Server, V4, 5, 100, 2_000),
        transfer("client-20%", Client, V4, 20, 100, 2_000),
        transfer("server-20%", Server, V4, 20, 100, 2_000),
        transfer("client-large", Client, V4, 0, 1_024, 500),
        transfer("server-large", Server, V4, 0, 1_024, 500),
        transfer("client-small", Client, V4, 0, 4, 500),
        transfer("server-small", Server, V4, 0, 4, 500),
        transfer("client-ipv6", Client, V6, 0, 100, 500),
        transfer("server-ipv6", Server, V6, 0, 100, 500),
        transfer("client-ipv6-5%", Client, V6, 5, 100, 500),
        Case {
            verdict: we_spoke_first,
            ..clean("we-speak-first-as-client", Client, 200, "after 200", |_| {})
        },
        Case {
            verdict: we_spoke_first,
            ..clean("we-speak-first-as-server", Server, 200, "after 200", |_| {})
        },
        Case {
            verdict: the_kernel_spoke_first,
            ..clean("kernel-speaks-first-as-client", Server, 200, "", |plan| {
                plan.after = 200
            })
        },
        Case {
            verdict: the_kernel_spoke_first,
            ..clean("kernel-speaks-first-as-server", Client, 200, "", |plan| {
                plan.after = 200
            })
        },
        clean(
            "kernel-closes-as-client",
            Server,
            100,
            "receive 100 close own",
            |plan| plan.end = End::Waits,
        ),
        clean(
            "kernel-closes-as-server",
            Client,
            100,
            "receive 100 close own",
            |plan| plan.end = End::Waits,
        ),
        Case {
            verdict: aborted_by_us,
            ..clean("we-abort-as-client", Client, 100, "", |plan| {
                plan.end = End::Aborts
            })
        },
        Case {
            verdict: aborted_by_us,
            ..clean("we-abort-as-server", Server, 100, "", |plan| {
                plan.end = End::Aborts
            })
        },
        Case {
            verdict: aborted_by_the_kernel,
            ..clean(
                "kernel-aborts-as-client",
                Server,
                100,
                "receive 100 close abort",
                |plan| plan.end = End::Waits,
            )
        },
        Case {
            verdict: aborted_by_the_kernel,
            ..clean(
                "kernel-aborts-as-server",
                Client,
                100,
                "receive 100 close abort",
                |plan| plan.end = End::Waits,
            )
        },
        Case {
            verdict: carried_and_wished,
            ..clean("sequence-window-as-client", Client, 500, "", |plan| {
                plan.prefers = vec![(Feature::SequenceWindow, Place::Here, vec![5_000])]
            })
        },
        Case {
            verdict: carried_and_wished,
            ..clean("ack-ratio-as-client", Client, 500, "", |plan| {
                plan.prefers = vec![(Feature::AckRatio, Place::Here, vec![4])];
                plan.keeps_ack_ratio = true;
            })
        },
        Case {
            verdict: carried_and_wished,
            ..clean("sequence-window-as-server", Server, 500, "", |plan| {
                plan.prefers = vec![(Feature::SequenceWindow, Place::Here, vec![5_000])]
            })
        },
        Case {
            verdict: kernel_asked,
            ..clean(
                "kernel-asks-while-open-as-client",
                Server,
                2_000,
                "",
                reads_what_the_kernel_asks,
            )
        },
        Case {
            verdict: kernel_asked,
            ..clean(
                "kernel-asks-while-open-as-server",
                Client,
                2_000,
                "",
                reads_what_the_kernel_asks,
            )
        },
        Case {
            verdict: carried_and_wished,
            ..clean("ack-ratio-as-server", Server, 500, "", |plan| {
                plan.prefers = vec![(Feature::AckRatio, Place::Here, vec![4])];
                plan.keeps_ack_ratio = true;
            })
        },
        Case {
            verdict: carried_and_unanswered,
            ..clean("ccid-while-open", Client, 200, "", |plan| {
                plan.prefers = vec![(Feature::Ccid, Place::Here, vec![2])]
            })
        },
        Case {
            verdict: stays_at_its_first_window,
            ..clean(
                "kernel-asks-for-no-vectors",
                Server,
                200,
                "wait 8",
                |plan| {
                    plan.offers.truncate(1);
                    plan.limit = Duration::from_secs(8);
                },
            )
        },
        clean("kernel-knows-ccid-2-alone", Server, 200, "ccid 2", |plan| {
            plan.offers.truncate(1)
        }),
        Case {
            verdict: insisted_on,
            ..clean(
                "kernel-offers-ccid-3-first",
                Client,
                10,
                "ccid 3,2 wait 4",
                |plan| plan.limit = Duration::from_secs(5),
            )
        },
        clean(
            "we-ask-for-ccid-2-of-3-and-2",
            Client,
            200,
            "ccid 3,2",
            |plan| {
                plan.offers.extend([
                    (Feature::Ccid, Place::Here, vec![2]),
                    (Feature::Ccid, Place::There, vec![2]),
                ]);
            },
        ),
        clean(
            "kernel-offers-ccid-3-first-as-client",
            Server,
            200,
            "ccid 3,2",
            |_| {},
        ),
        Case {
            verdict: nothing_shared,
            ..clean(
                "kernel-offers-ccid-3-alone",
                Client,
                10,
                "ccid 3 wait 5",
                |plan| plan.limit = Duration::from_secs(6),
            )
        },
        Case {
            verdict: short_is_refused,
            ..clean("short-numbers-are-refused", Client, 200, "", |plan| {
                plan.offers = vec![(Feature::ShortSeqnos, Place::Here, vec![1, 0])]
            })
        },
        Case {
            verdict: nobody_serves_there,
            kernel: None,
            ..clean("nobody-serves-there", Client, 10, "", |plan| {
                plan.limit = Duration::from_secs(5)
            })
        },
        Case {
            verdict: nobody_serves_here,
            ..clean("nobody-serves-here", Role::Nobody, 10, "wait 4", |plan| {
                plan.limit = Duration::from_secs(5)
            })
        },
        Case {
            verdict: other_service_there,
            ..clean(
                "other-service-there",
                Client,
                10,
                "service 43 wait 4",
                |plan| plan.limit = Duration::from_secs(5),
            )
        },
        Case {
            verdict: other_service_here,
            ..clean(
                "other-service-here",
                Server,
                10,
                "service 43 wait 4",
                |plan| plan.limit = Duration::from_secs(5),
            )
        },
        Case {
            verdict: left,
            ..clean("we-vanish", Client, 50, "wait 6", |plan| {
                (plan.end, plan.limit) = (End::Vanishes, Duration::from_secs(20))
            })
        },
        Case {
            verdict: met_by_its_old_end,
            ..clean(
                "we-come-again-from-that-port",
                Client,
                200,
                "wait 6",
                |plan| {
                    plan.first = 1 << 44;
                    plan.limit = Duration::from_secs(6);
                },
            )
        },
        clean("we-come-again", Client, 200, "", |_| {}),
        Case {
            verdict: forgotten_by_us,
            ..clean(
                "we-restart-as-server",
                Server,
                20,
                "send 200 gap 20 wait 10",
                |plan| (plan.end, plan.limit) = (End::Restarts, Duration::from_secs(10)),
            )
        },
        forgetting("the-kernel-restarts-as-server", Client),
        forgetting("the-kernel-restarts-as-client", Server),
        coming_again(),
    ]
}

/// The kernel's end is gone without a word, as after a new start of the machine: the Reset of its abort is lost.
fn forgetting(name: &'static str, role: Role) -> Case {
    let mut case = clean(
        name,
        role,
        200,
        "send 50 receive 50 close abort quiet 10",
        |plan| plan.limit = Duration::from_secs(20),
    );
    case.path.lost_reset = Some(2);
    case.verdict = forgotten_by_the_kernel;
    case
}

/// The same, and a new end of the kernel's comes from the port of the old one, to our server that still has that connection.
fn coming_again() -> Case {
    let first = "client 10.9.0.1 5001 port 40600 send 50 wait 20 close abort quiet 300";
    let second = "client 10.9.0.1 5001 port 40600 send 200 wait 30 close peer";
    let mut case = clean(
        "the-kernel-comes-again-from-that-port",
        Role::Server,
        250,
        "",
        |plan| (plan.send, plan.serves_again) = (0, true),
    );
    case.kernel = Some(format!("{first} > /dev/null; /peer {second}"));
    case.path.lost_reset = Some(2);
    case.verdict = met_by_our_old_end;
    case
}
