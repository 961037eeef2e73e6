//! Whole scripts and their answers: the worked numbers that run on a node, and the domain's edges.
use super::run::{run, Manner};

const NEW: &str = "new 10 10 10 10 1 3 6 1169 1 0 0\n";

fn answers(script: &str, quiet: bool) -> String {
    let mut out = Vec::new();
    let manner = Manner { quiet, past: false };
    run(script.as_bytes(), &mut out, manner).unwrap();
    String::from_utf8(out).unwrap()
}

/// The last answer with its messages and events.
fn last_answer(calls: &str) -> String {
    let all = answers(&format!("{NEW}{calls}"), true);
    let starts = ["\n= ", "\n? "].map(|mark| all.rfind(mark));
    let start = starts.into_iter().flatten().max().unwrap() + 1;
    all[start..].to_string()
}

fn last_state(calls: &str, letter: char) -> String {
    let all = answers(&format!("{NEW}{calls}"), false);
    let row = |line: &&str| line.starts_with(letter);
    all.lines().rfind(row).unwrap().to_string()
}

#[test]
fn lines_without_a_node_and_lines_not_of_the_form() {
    let script = "add 5 0 |\nwait ping 0\n\n# a remark\nnew 1\nrows 2000 0\nstep 0 |";
    assert_eq!(answers(script, false), "= none\n? 5\n? 6\n= none\n");
}

#[test]
fn a_fresh_node() {
    let expected = "= ok 0\n@ 0 1:a:0\nl 0 0 0\n+\nx\nt\nw ping 0\nd\n";
    assert_eq!(answers(NEW, false), expected);
}

#[test]
fn a_tie_is_sent_x_z_y() {
    let calls = "ack 2 - j:2:7:0 j:2:8:0 j:2:9:0 | 0 0 0\nreq 2 3 |";
    assert_eq!(
        last_answer(calls),
        "= ok 0\n> 3 ping 1 2 j:1:7:0 j:1:9:0 j:1:8:0\n"
    );
}

#[test]
fn a_pick_may_give_one_peer_twice() {
    let order = "add 2 0 | 0\nadd 3 0 | 1\nadd 4 0 | 2\n";
    let requests = "wait req 9 0 0\nstep 0 |\nwait req 9 0 0\nstep 0 | 3 0 1";
    let script = format!("new 10 10 10 10 2 3 1 1169 1 0 0\n{order}{requests}");
    let all = answers(&script, true);
    assert!(
        all.contains("> 2 req 1 9 s:1:9:0\n> 3 req 1 9 s:1:9:0\n"),
        "{all}"
    );
    assert!(
        all.contains("= ok 3\n> 4 req 1 9 s:1:9:0\n> 4 req 1 9 s:1:9:0\n"),
        "{all}"
    );
}

#[test]
fn suspected_at_the_held_number_of_a_pending_peer_is_nothing() {
    let pending = "add 2 4 | 0\nstep 10 |\n";
    let same = format!("{pending}ack 3 - s:3:2:4 |");
    assert_eq!(last_state(&same, '@'), "@ 1 2:p:4 1:a:0");
    let greater = format!("{pending}ack 3 - s:3:2:5 |");
    assert_eq!(last_state(&greater, '@'), "@ 1 2:s:5 1:a:0");
}

#[test]
fn lamps_count_the_peers_alone() {
    let peers = "add 2 4 | 0\nadd 3 0 | 0\n";
    assert_eq!(last_state(peers, 'l'), "l 2 0 0");
    let pending = format!("{peers}step 10 |\n");
    assert_eq!(last_state(&pending, 'l'), "l 1 1 0");
    let suspected = format!("{pending}ack 9 - s:9:2:5 s:9:3:5 |\n");
    assert_eq!(last_state(&suspected, 'l'), "l 0 0 2");
    let without_own = format!("{suspected}ack 9 - d:9:1:0 d:9:3:5 |");
    assert_eq!(last_state(&without_own, 'l'), "l 0 0 1");
}

#[test]
fn deceased_below_the_held_number_is_kept() {
    assert_eq!(
        last_state("add 2 4 | 1\nack 3 - d:3:2:3 |", '@'),
        "@ 0 1:a:0 2:a:4"
    );
    assert_eq!(
        last_state("add 2 4 | 1\nack 3 - d:3:2:4 |", '@'),
        "@ 0 1:a:0"
    );
}

#[test]
fn joined_goes_over_a_held_death() {
    let calls = "add 2 0 | 1\nack 3 - d:3:2:7 |\nack 3 - j:3:2:2 | 1";
    assert_eq!(last_state(calls, '@'), "@ 0 1:a:0 2:a:8");
}

#[test]
fn removing_before_the_position_leaves_it() {
    let order = "add 2 0 | 0\nadd 3 0 | 1\nadd 4 0 | 3\nstep 10 |\nwait ping 0\nstep 10 |\n";
    assert_eq!(last_state(order, '@'), "@ 2 2:p:0 3:p:0 1:a:0 4:a:0");
    let removed = format!("{order}ack 9 - d:9:2:0 |");
    assert_eq!(last_state(&removed, '@'), "@ 2 3:p:0 1:a:0 4:a:0");
}

#[test]
fn ticks_come_round() {
    assert_eq!(last_answer("wait ping 4294967295\nstep 8 |"), "= notdue\n");
    assert_eq!(last_answer("wait ping 4294967295\nstep 9 |"), "= ok 0\n");
    assert_eq!(last_answer("wait ping 100\nstep 99 |"), "= ok 0\n");
}

#[test]
fn the_first_timer_that_is_over_ends() {
    let suspects = "add 2 0 | 1\nadd 8 1 | 1\nack 9 - s:9:2:0 s:9:8:1 |\n";
    let two = &format!("{suspects}wait dead 8 1 0\nstep 5 |\nwait dead 2 0 0\nstep 0 |\n");
    assert_eq!(last_state(two, 't'), "t 8:1:5 2:0:0");
    assert_eq!(
        last_answer(&format!("{two}timer 12")),
        "= ok 0\n! d:1:2:0\n"
    );
    assert_eq!(
        last_answer(&format!("{two}timer 15")),
        "= ok 0\n! d:1:8:1\n"
    );
    assert_eq!(last_answer(&format!("{two}timer 9")), "= notdue\n");
}

fn is_outside(calls: &str) -> bool {
    last_answer(&format!("{calls}\nadd 77 0 | 0")) == "? outside\n"
}

#[test]
fn refused_creations_are_outside() {
    for creation in [
        "new 10 10 10 10 1 3 6 1169 281474976710656 0 0",
        "new 2147483648 10 10 10 1 3 6 1169 1 0 0",
        "new 10 10 10 2147483648 1 3 6 1169 1 0 0",
        "new 10 10 10 10 5 3 6 1169 1 0 0",
        "new 10 10 10 10 1 9 6 1169 1 0 0",
        "new 10 10 10 10 1 3 0 1169 1 0 0",
        "new 10 10 10 10 1 3 65 1169 1 0 0",
        "new 10 10 10 10 1 3 6 58 1 0 0",
        "new 10 10 10 10 1 3 6 1374 1 0 0",
        "new 10 10 10 10 1 3 6 1169 1 0 0 collect",
        "new 10 10 10 10 1 3 6 1169 1 0 0 remember",
        "new 10 10 10 10 1 3 6 1169 1 0 0 collect remember",
    ] {
        let all = answers(&format!("{creation}\nadd 2 0 | 0"), false);
        assert_eq!(all, "? outside\n? outside\n", "{creation}");
    }
}

#[test]
fn a_lowered_number_is_outside() {
    let raised = "add 2 5 | 0\nstep 10 |\nack 3 - j:3:2:6 |\nstep 20 |\nstep 20 |";
    assert!(is_outside(raised));
    let suspected = |wait: &str| format!("add 2 5 | 0\nwait req {wait} 0\nstep 0 |");
    assert!(is_outside(&suspected("2 4")));
    // at the held number, above it, and of a peer that is not listed
    for wait in ["2 5", "2 6", "9 0"] {
        assert!(!is_outside(&suspected(wait)), "{wait}");
    }
}

#[test]
fn a_timer_that_removes_nobody_is_outside() {
    let ended =
        |before: &str, wait: &str| format!("{before}wait dead {wait} 10\nstep 10 |\ntimer 20");
    // Alive, Pending at a greater number, not listed, and the own address
    assert!(is_outside(&ended("add 2 5 | 0\n", "2 5")));
    assert!(is_outside(&ended("add 2 5 | 0\nstep 10 |\n", "2 4")));
    assert!(is_outside(&ended("", "2 5")));
    assert!(is_outside(&ended("add 2 5 | 0\n", "1 0")));
    // Pending or Suspected, at an equal number or a lower one
    for wait in ["2 5", "2 6"] {
        for before in ["step 10 |\n", "ack 3 - s:3:2:5 |\n"] {
            assert!(!is_outside(&ended(&format!("add 2 5 | 0\n{before}"), wait)));
        }
    }
}

#[test]
fn short_rows_are_outside() {
    for (rows, call) in [
        ("63 65", "ack 2 - |"),
        ("64 64", "ack 2 - |"),
        ("255 1", "step 0 |"),
        ("256 0", "step 0 |"),
        ("0 0", "timer 0"),
    ] {
        assert!(is_outside(&format!("rows {rows}\n{call}")), "{rows} {call}");
    }
    for (rows, call) in [
        ("64 65", "ack 2 - |"),
        ("256 1", "step 0 |"),
        ("0 1", "timer 0"),
        ("0 0", "add 2 0 | 0"),
    ] {
        assert!(
            !is_outside(&format!("rows {rows}\n{call}")),
            "{rows} {call}"
        );
    }
}

#[test]
fn large_inputs_are_outside() {
    let large = "281474976710656";
    for call in [
        format!("add {large} 0 | 0"),
        format!("ack {large} - |"),
        format!("ping 2 {large} | 0"),
        format!("ack 2 - j:{large}:2:0 | 0"),
        format!("ack 2 - r:2:{large}:0 |"),
        format!("wait dead {large} 0 0\nstep 0 |"),
        format!("ack 2 -{} |", " n".repeat(65)),
    ] {
        assert!(is_outside(&call), "{call}");
    }
    assert!(!is_outside(&format!("wait dead {large} 0 0\ntimer 0")));
    assert!(!is_outside(&format!("ack 2 -{} |", " n".repeat(64))));
}

#[test]
fn a_number_past_the_last_is_outside() {
    let last = u64::MAX;
    let held_death = format!("add 2 0 | 1\nack 3 - d:3:2:{last} |\n");
    assert!(!is_outside(&held_death));
    assert!(is_outside(&format!("{held_death}ping 2 - | 0")));
    assert!(is_outside(&format!("{held_death}ack 3 - j:3:2:0 | 0")));
    assert!(is_outside(&format!(
        "{held_death}add 2 0 | 0\nack 3 - j:3:2:0 | 0"
    )));
    assert!(!is_outside(&format!("{held_death}add 2 0 | 0\nping 2 - |")));
    assert!(is_outside(&format!("ack 2 - s:2:1:{last} |")));
}

#[test]
fn missing_draws_are_outside() {
    assert!(is_outside("add 2 0 |"));
    assert!(!is_outside("add 2 0 | 0\nadd 2 0 |"));
    assert!(is_outside("ping 2 - |"));
}

#[test]
fn a_65th_member_is_outside() {
    let members: String = (2..=64).map(|peer| format!("add {peer} 0 | 0\n")).collect();
    let mut joined = format!("{members}ack 2 - d:2:3:0 j:2:90:0 | 0\n");
    assert_eq!(last_answer(&joined), "= ok 1\n! d:1:3:0\n! j:1:90:0\n");
    assert_eq!(
        last_answer(&format!("{members}add 65 0 | 0")),
        "? outside\n"
    );
    joined.push_str("ack 2 - j:2:91:0 d:2:91:0 | 0");
    assert_eq!(last_answer(&joined), "? outside\n");
}

#[test]
fn a_129th_event_is_outside() {
    let news = |from, to| {
        (from..to)
            .map(|number| format!(" r:2:1:{number}"))
            .collect::<String>()
    };
    let full = format!("ack 2 -{} |\nack 2 -{} |", news(1, 65), news(65, 129));
    assert_eq!(last_state(&full, '+').split(' ').count(), 129);
    let script = format!("{full}\nack 2 - r:2:1:129 |");
    assert_eq!(last_answer(&script), "? outside\n");
    // The choice of gossip that follows the push makes no room for it.
    let script = format!("{full}\nreq 2 3 r:2:1:129 |");
    assert_eq!(last_answer(&script), "? outside\n");
}

#[test]
fn a_17th_timer_is_outside() {
    let timer = "wait dead 2 0 0\nstep 0 |\n";
    assert_eq!(last_answer(&timer.repeat(16)), "= ok 0\n");
    assert_eq!(last_answer(&timer.repeat(17)), "? outside\n");
}

#[test]
fn an_emptied_list_is_outside() {
    assert_eq!(last_answer("ack 2 - d:2:1:0 |"), "? outside\n");
    assert_eq!(last_answer("ack 2 - d:2:1:0 j:2:3:0 | 0"), "? outside\n");
    assert_eq!(
        last_answer("wait dead 1 0 0\nstep 0 |\ntimer 10"),
        "? outside\n"
    );
    assert_eq!(
        last_answer("add 2 0 | 1\nack 2 - d:2:1:0 |"),
        "= ok 0\n! d:1:1:0\n"
    );
}

/// The answer to a line that needs no node.
fn answer_to(line: &str) -> String {
    answers(line, false)
}

#[test]
fn datagrams_are_read_and_written_without_a_node() {
    let bytes = "0a0b0a09302e302e302e303a31";
    assert_eq!(
        answer_to("write 13 ping 1 -"),
        format!("= ok 0\n< {bytes}\n")
    );
    assert_eq!(
        answer_to(&format!("read 64 {bytes}")),
        "= ok 0\n< ping 1 -\n"
    );
    assert_eq!(answer_to("write 12 ping 1 -"), "= refused 12\n");
    assert_eq!(answer_to(&format!("read 63 {bytes}")), "= refused 3\n");
    // an answer of theirs is no part of a node's: the state stays, and nothing follows
    let within = format!("{NEW}read 64 {bytes}\nadd 2 0 | 0");
    assert!(answers(&within, true).ends_with("< ping 1 -\n= ok 1\n"));
}

#[test]
fn readings_are_refused_in_order() {
    // no action; field 0; a text that is no text; an address that is not canonical
    assert_eq!(answer_to("read 64 -"), "= refused 11 0\n");
    assert_eq!(answer_to("read 63 -"), "= refused 3\n");
    assert_eq!(answer_to("read 64 0a000200"), "= refused 11 2\n");
    assert_eq!(answer_to("read 64 0a030a01ff"), "= refused 11 2\n");
    let odd = "0a0c0a0a30312e322e332e343a35";
    assert_eq!(answer_to(&format!("read 64 {odd}")), "= refused 11 14\n");
    // 65 records of no event: 4 only where the rest is well
    let many = "1a00".repeat(65);
    let from = "0a09302e302e302e303a31";
    assert_eq!(
        answer_to(&format!("read 64 0a8d01{from}{many}")),
        "= refused 4\n"
    );
    assert_eq!(
        answer_to(&format!("read 64 0a8201{many}")),
        "= refused 11 133\n"
    );
}

#[test]
fn a_group_is_outside() {
    assert_eq!(answer_to("read 64 2324"), "? outside\n");
    assert_eq!(answer_to("read 64 24"), "= refused 11 0\n");
}

#[test]
fn writings_are_refused_in_order() {
    let large = "281474976710656";
    let many = " n".repeat(65);
    assert_eq!(
        answer_to(&format!("write 0 ping {large} -{many}")),
        "= refused 4\n"
    );
    assert_eq!(
        answer_to(&format!("write 0 ping {large} -")),
        "= refused 5\n"
    );
    assert_eq!(
        answer_to(&format!("write 0 req 1 {large}")),
        "= refused 5\n"
    );
    assert_eq!(
        answer_to(&format!("write 0 ack 1 - d:1:{large}:0")),
        "= refused 5\n"
    );
    assert_eq!(answer_to("write 0 ping 1 -"), "= refused 12\n");
}
