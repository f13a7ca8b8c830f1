//! Tables as text: what is read, what is refused and why, and that both ways agree.

mod common;

use common::*;
use second::random::{self, Random};
use second::refusal::{Input, Refusal};
use second::table::{Operation, Table, Transition};
use second::text::{pack, read_text, unpack};

const HEADER: &str =
    "states fresh visited closed\nchannels phone\nmessages report done\nstart fresh\n";

/// The reader refuses this text with this line and reason.
fn refused(text: &str, reason: &str) {
    let error = read_text(text.as_bytes()).expect_err(text);
    assert_eq!(error.to_string(), reason, "{text}");
}

/// The same for a line behind the four header lines.
fn refused_line(line: &str, reason: &str) {
    refused(&format!("{HEADER}{line}\n"), &format!("line 5: {reason}"));
}

#[test]
fn a_text_with_names() {
    let text = "# A comment.

states   fresh visited closed        # names
channels phone
messages report done
start    visited

fresh -> visited   send phone done     label 3
visited -> closed  receive phone done
visited->fresh     quiet
bad      closed
";
    let error = pack(text.as_bytes()).expect_err("an arrow without blanks");
    assert_eq!(error.line, 10);
    let text = text.replace("visited->fresh", "\tvisited -> fresh");
    let transition = |source, target, operation, label| Transition {
        source,
        target,
        operation,
        label,
    };
    let (channel, message) = (0, 1);
    let mut expected = Table::new(3, 1, 2, 1);
    expected.transitions = vec![
        transition(0, 1, Operation::Send { channel, message }, 3),
        transition(1, 2, Operation::Receive { channel, message }, 0),
        transition(1, 0, Operation::Quiet, 0),
    ];
    expected.set_bad(2);
    assert_eq!(read_text(text.as_bytes()), Ok(expected));
}

#[test]
fn names_and_numbers_may_be_mixed() {
    let named = "fresh -> visited send phone done label 7\nvisited -> closed quiet\nbad visited\nbad closed\n";
    let mixed = "0 -> visited send 0 done label 007\n1 -> 2 quiet label 0\nbad 1\nbad 2\n";
    assert_eq!(
        pack(format!("{HEADER}{named}").as_bytes()),
        pack(format!("{HEADER}{mixed}").as_bytes())
    );
    // A count instead of names, and lines that end as elsewhere.
    let counted = "states 3\r\nchannels 1\r\nmessages 2\r\nstart 0\r\n";
    assert_eq!(pack(counted.as_bytes()), pack(HEADER.as_bytes()));
}

#[test]
fn a_text_that_ends_early() {
    refused("", "line 1: the text ends before its line \"states\"");
    refused(
        "\n\n# x\n",
        "line 3: the text ends before its line \"states\"",
    );
    let lines: Vec<&str> = HEADER.lines().collect();
    for (count, keyword) in [(1, "channels"), (2, "messages"), (3, "start")] {
        let reason = format!("line {count}: the text ends before its line \"{keyword}\"");
        refused(&lines[..count].join("\n"), &reason);
    }
    assert!(pack(HEADER.as_bytes()).is_ok());
}

#[test]
fn header_lines_out_of_order() {
    refused(
        "channels 1\n",
        "line 1: the line \"states\" must stand here, not \"channels\"",
    );
    refused(
        "states 1\n\nmessages 1\n",
        "line 3: the line \"channels\" must stand here, not \"messages\"",
    );
    refused(
        "states 1\nchannels 1\nstart 0\n",
        "line 3: the line \"messages\" must stand here, not \"start\"",
    );
    refused(
        "states 1\nchannels 1\nmessages 1\n0 -> 0 quiet\n",
        "line 4: the line \"start\" must stand here, not \"0\"",
    );
    for keyword in ["states", "channels", "messages", "start", "send", "label"] {
        let reason = format!("a line \"{keyword}\" may not stand here");
        refused_line(&format!("{keyword} 1"), &reason);
    }
}

#[test]
fn counts() {
    for (what, before, most) in [
        ("states", "", 4096),
        ("channels", "states 1\n", 4),
        ("messages", "states 1\nchannels 1\n", 15),
    ] {
        let line = before.lines().count() + 1;
        let rest: String = ["channels 1\n", "messages 1\n", "start 0\n"][line - 1..].concat();
        let with = |count: &str| format!("{before}{what} {count}\n{rest}");
        assert!(pack(with("1").as_bytes()).is_ok());
        assert!(pack(with(&most.to_string()).as_bytes()).is_ok());
        let names: Vec<String> = (0..most).map(|number| format!("n{number}")).collect();
        assert!(pack(with(&names.join(" ")).as_bytes()).is_ok());
        let reason = format!("line {line}: there must be 1 to {most} {what}");
        refused(&with("0"), &reason);
        refused(&with(&(most + 1).to_string()), &reason);
        refused(&with("99999999999999999999999"), &reason);
        refused(&with(&format!("{} more", names.join(" "))), &reason);
        let singular = &what[..what.len() - 1];
        refused(
            &with(""),
            &format!("line {line}: \"{what}\" needs a count or names"),
        );
        refused(
            &with("2 3"),
            &format!("line {line}: nothing may follow the count of {what}"),
        );
        refused(
            &with("same same"),
            &format!("line {line}: the {singular} \"same\" stands twice"),
        );
    }
}

#[test]
fn names() {
    for name in ["a", "Z9", "a_b-c.d", "statesman", "x0"] {
        assert!(
            pack(format!("states {name}\nchannels 1\nmessages 1\nstart {name}\n").as_bytes())
                .is_ok()
        );
    }
    for name in [
        "a 9b",
        "a _b",
        "a -b",
        "a .b",
        "a b!",
        "a ->",
        "a b,",
        "a \u{e9}t",
        "+1",
    ] {
        let wrong = name.rsplit(' ').next().expect("a word");
        let reason = format!(
            "line 1: \"{wrong}\" is no name: a letter, then letters, digits, \"_\", \"-\" or \".\""
        );
        refused(&format!("states {name}\n"), &reason);
    }
    for keyword in [
        "states", "channels", "messages", "start", "send", "receive", "quiet", "label", "bad",
    ] {
        let reason = format!("line 1: \"{keyword}\" is a keyword and no name");
        refused(&format!("states a {keyword}\n"), &reason);
        refused(&format!("states {keyword}\n"), &reason);
    }
    // The same name may stand in two lists.
    let shared = "states a\nchannels a\nmessages a\nstart a\na -> a send a a\n";
    assert!(pack(shared.as_bytes()).is_ok());
}

#[test]
fn the_start() {
    let header = "states fresh visited\nchannels 1\nmessages 1\n";
    for wrong in ["start", "start fresh visited"] {
        refused(
            &format!("{header}{wrong}\n"),
            "line 4: \"start\" needs one state",
        );
    }
    for wrong in ["fesh", "2", "70000", "-1"] {
        let reason = format!("line 4: there is no state \"{wrong}\"");
        refused(&format!("{header}start {wrong}\n"), &reason);
    }
}

#[test]
fn transitions() {
    refused_line("fresh -> closd quiet", "there is no state \"closd\"");
    refused_line("frsh -> closed quiet", "there is no state \"frsh\"");
    refused_line("3 -> 0 quiet", "there is no state \"3\"");
    refused_line("0 -> 3 quiet", "there is no state \"3\"");
    refused_line("0 -> 1 send fone done", "there is no channel \"fone\"");
    refused_line("0 -> 1 send 1 done", "there is no channel \"1\"");
    refused_line("0 -> 1 receive phone dne", "there is no message \"dne\"");
    refused_line("0 -> 1 receive phone 2", "there is no message \"2\"");
    refused_line(
        "0 -> 1 send phone",
        "\"send\" needs a channel and a message",
    );
    refused_line(
        "0 -> 1 receive",
        "\"receive\" needs a channel and a message",
    );
    refused_line(
        "0 -> 1",
        "a transition needs an operation: send, receive or quiet",
    );
    refused_line(
        "0 -> 1 sends phone done",
        "\"sends\" is no operation: send, receive or quiet",
    );
    refused_line(
        "0 -> 1 quiet phone",
        "\"phone\" may not follow the operation",
    );
    refused_line(
        "0 -> 1 send phone done done",
        "\"done\" may not follow the operation",
    );
    refused_line("0 1 quiet", "this is neither a transition nor a bad state");
    refused_line("0 -> ", "this is neither a transition nor a bad state");
    refused_line("fresh", "this is neither a transition nor a bad state");
}

#[test]
fn labels() {
    for (label, given) in [("0", 0), ("255", 255), ("017", 17)] {
        let text = format!("{HEADER}0 -> 1 quiet label {label}\n");
        let table = read_text(text.as_bytes()).expect("a good text");
        assert_eq!(table.transitions[0].label, given);
    }
    for wrong in ["256", "-1", "+1", "x", "99999999999"] {
        refused_line(
            &format!("0 -> 1 quiet label {wrong}"),
            "a label is a number from 0 to 255",
        );
    }
    for wrong in ["label", "label 1 2", "label 1 label 2"] {
        refused_line(
            &format!("0 -> 1 quiet {wrong}"),
            "\"label\" needs one number, and nothing after",
        );
    }
}

#[test]
fn bad_states() {
    refused_line("bad", "\"bad\" needs one state");
    refused_line("bad fresh closed", "\"bad\" needs one state");
    refused_line("bad closd", "there is no state \"closd\"");
    refused_line("bad 3", "there is no state \"3\"");
    let two = |first: &str, second: &str| format!("{HEADER}bad {first}\n{second}\n");
    refused(
        &two("visited", "bad visited"),
        "line 6: bad states must rise",
    );
    refused(&two("visited", "bad fresh"), "line 6: bad states must rise");
    refused(
        &two("visited", "0 -> 1 quiet"),
        "line 6: a transition may not follow a bad state",
    );
    assert!(pack(two("visited", "bad closed").as_bytes()).is_ok());
}

#[test]
fn transition_1025() {
    let lines = |count: usize| format!("{HEADER}{}", "0 -> 1 quiet\n".repeat(count));
    assert!(pack(lines(1024).as_bytes()).is_ok());
    refused(
        &lines(1025),
        "line 1029: there may be at most 1024 transitions",
    );
}

#[test]
fn unpacked_text_has_numbers() {
    let text = "states 3\nchannels 1\nmessages 2\nstart 0\n0 -> 1 send 0 1 label 3\n1 -> 2 receive 0 1\n1 -> 0 quiet\nbad 2\n";
    let table = pack(text.as_bytes()).expect("a good text");
    assert_eq!(unpack(&table).as_deref(), Ok(text));
}

#[test]
fn packing_an_unpacked_table_gives_it_back() {
    let mut random = Random::new(31);
    for _ in 0..500 {
        let table = random::table(&mut random).to_bytes();
        let text = unpack(&table).expect("a good table");
        assert_eq!(pack(text.as_bytes()), Ok(table));
    }
}

#[test]
fn a_refused_table_is_not_unpacked() {
    let refusal = Refusal {
        number: 1,
        input: Input::Table,
        place: 46,
    };
    assert_eq!(unpack(&example_a()[..50]), Err(refusal));
}

/// Any bytes have an answer, and what is packed is always a good table.
#[test]
fn any_bytes_are_read_or_refused() {
    let mut random = Random::new(32);
    let mut packed = 0;
    for _ in 0..3000 {
        let table = random::table_of(&mut random, random::Shape::Tiny).to_bytes();
        let mut text = unpack(&table).expect("a good table").into_bytes();
        for _ in 0..random.below(3) {
            let place = random.below(text.len());
            text[place] = if random.chance(1, 2) {
                random.byte()
            } else {
                b"0123 \n#->sendbad"[random.below(16)]
            };
        }
        if let Ok(table) = pack(&text) {
            let read = Table::read(&table).expect("a packed table");
            assert_eq!(read.to_bytes(), table);
            packed += 1;
        }
    }
    assert!(packed > 1000 && packed < 2900, "{packed}");
}
