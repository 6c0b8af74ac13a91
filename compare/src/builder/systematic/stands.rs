//! Every call at every kind of open part: those that are refused there in a
//! row, those that are taken each after the same calls anew. Every refusal is
//! met alone and with those that come behind it in the order.

use super::{bad, equal, sound, xor, Scribe};
use crate::builder::calls::Call;
use crate::builder::model::added;
use Call::{Close, OpenBlock, OpenIfElse, OpenWhile};

/// The calls that lead to each kind of open part, with nothing in it and with
/// a code, and to builds that are finished.
fn ways() -> Vec<Vec<Call>> {
    let if_else = || OpenIfElse(equal(1, 2));
    let repeat = || OpenWhile(equal(3, 4));
    vec![
        vec![],
        vec![OpenBlock],
        vec![OpenBlock, xor()],
        vec![if_else()],
        vec![if_else(), xor()],
        vec![if_else(), OpenBlock, Close],
        vec![if_else(), xor(), Close],
        vec![if_else(), xor(), Close, xor()],
        vec![repeat()],
        vec![repeat(), xor()],
        vec![OpenBlock, repeat(), xor(), Close],
        vec![xor()],
        vec![OpenBlock, Close],
        vec![if_else(), xor(), Close, xor(), Close],
        vec![repeat(), xor(), Close],
    ]
}

pub fn lists(scribe: &mut Scribe) {
    for way in ways() {
        scribe.list(100);
        scribe.take(&way);
        scribe.no_value();
        let refused = refused_calls(scribe);
        for call in sound().iter().filter(|call| !refused.contains(call)) {
            let need = scribe.recorder.length() + added(call);
            assert_eq!(scribe.lend(call, need), 0);
            scribe.recorder.begin();
            scribe.take(&way);
        }
    }
    nested(scribe);
}

/// Those that are refused with everything lent; the others are tried with a
/// byte too little.
fn refused_calls(scribe: &mut Scribe) -> Vec<Call> {
    let length = scribe.recorder.length();
    for (call, number) in bad() {
        for lent in [100, 0] {
            assert!([number, 51].contains(&scribe.lend(&call, lent)));
        }
    }
    let mut refused = Vec::new();
    for call in sound() {
        let need = length + added(&call);
        if need > 0 && scribe.lend(&call, need - 1) == 51 {
            assert_eq!(scribe.call(&call), 51);
            refused.push(call);
        } else if need > 0 {
            assert_eq!(scribe.lend(&call, 0), 52);
        } else if scribe.call(&call) == 51 {
            refused.push(call);
        }
    }
    refused
}

/// IfElse in both parts of an IfElse, each with an empty Block and a While.
fn nested(scribe: &mut Scribe) {
    let inner = [
        OpenIfElse(equal(5, 6)),
        OpenBlock,
        Close,
        Close,
        OpenWhile(equal(7, 8)),
        xor(),
        Close,
        Close,
    ];
    scribe.list(200);
    scribe.take(&[OpenIfElse(equal(9, 10))]);
    scribe.take(&inner);
    scribe.take(&[Close]);
    scribe.take(&inner);
    scribe.take(&[Close]);
    assert_eq!(scribe.call(&Close), 51);
}
