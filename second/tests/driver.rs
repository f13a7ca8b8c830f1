//! The driver's replies: each lent buffer comes back between guards, and a write to any of their
//! bytes is seen.

use second::calls::{Call, Lent, Reply};
use second::compare::COMPARISONS;
use second::driver::{guard, read_reply, GUARD_BYTES};

/// Short calls of every function, with buffers of every kind.
fn calls() -> Vec<Call> {
    let cases = COMPARISONS.iter().flat_map(|comparison| {
        let first = comparison.cases;
        (first..first + 60).map(|case| comparison.case(1, case))
    });
    let calls: Vec<Call> = cases.filter(is_short).collect();
    for comparison in COMPARISONS {
        let function = comparison.case(1, 0).function;
        assert!(calls.iter().any(|call| call.function == function));
    }
    calls
}

fn is_short(call: &Call) -> bool {
    let places = call.lent.iter().map(|lent| match lent {
        Lent::Bytes(bytes) => bytes.len(),
        Lent::Words(words) => words.len(),
        Lent::Numbers(numbers) => numbers.len(),
    });
    places.sum::<usize>() < 2000
}

/// The reply's bytes as the driver sends them, and where each guard's first byte stands.
fn sent(reply: &Reply) -> (Vec<u8>, Vec<usize>) {
    let mut bytes = reply.answer.to_le_bytes().to_vec();
    let mut guards = Vec::new();
    for lent in &reply.lent {
        guards.push(bytes.len());
        bytes.extend(guard());
        match lent {
            Lent::Bytes(elements) => bytes.extend(elements),
            Lent::Words(elements) => elements.iter().for_each(|e| bytes.extend(e.to_le_bytes())),
            Lent::Numbers(elements) => elements.iter().for_each(|e| bytes.extend(e.to_le_bytes())),
        }
        guards.push(bytes.len());
        bytes.extend(guard());
    }
    (bytes, guards)
}

#[test]
fn a_reply_is_read_as_it_was_sent() {
    for call in calls() {
        let reply = call.reply();
        let (bytes, _) = sent(&reply);
        assert_eq!(read_reply(&mut &bytes[..], &call).expect("a reply"), reply);
    }
}

#[test]
fn a_write_to_any_byte_beside_a_buffer_is_seen() {
    for call in calls() {
        let (bytes, guards) = sent(&call.reply());
        assert_eq!(guards.len(), 2 * call.lent.len());
        for place in guards.iter().flat_map(|first| *first..first + GUARD_BYTES) {
            let mut written = bytes.clone();
            written[place] ^= 1;
            let reply = read_reply(&mut &written[..], &call).expect("a reply");
            assert!(reply.wrote_outside, "{call:?} byte {place}");
        }
    }
}

#[test]
fn a_reply_that_ends_early_is_an_error() {
    for call in calls() {
        let (bytes, _) = sent(&call.reply());
        assert!(read_reply(&mut &bytes[..bytes.len() - 1], &call).is_err());
    }
}
