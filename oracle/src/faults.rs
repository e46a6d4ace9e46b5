//! Single faults in what the program might answer, and whether the comparison and the fixed list find each of them.
//! A comparison that cannot fail says nothing.

use crate::entries::{judge, Tally};
use crate::inputs;
use crate::list;
use crate::paper::{Paper, Rest, Row, ROWS};
use crate::request::Request;

#[derive(Clone, Copy, Debug, PartialEq)]
pub enum Knob {
    Dropped,
    OneMoreToDecode,
    OneLessToDecode,
    OtherCase,
    FieldMisnamed,
    FieldsSwapped,
    BigEndian,
    PartOneOn,
    ItemOneLonger,
    LastItemLost,
    TailKept,
    SizeOneMore,
    StrictTurned,
    NeedsOneMoreRoom,
    WritesOnRefusal,
    WritesBehind,
    TakesFourBytes,
    LongRefused,
}

#[derive(Clone, Copy, Debug, PartialEq)]
pub enum Slip {
    /// The first opcode's row taken for the second one too.
    TakesReply(u8, u8),
    LongAsFour,
    IntNeedsExactRoom,
    IntBigEndian,
    ReadShortIsSpace,
    ReadMovesOnRefusal,
    ConsumeMoves,
    NothingIsThereAfterTheEnd,
    AppendWritesOnRefusal,
    SplitAtPosition,
    TruncateMovesOn,
    EqualWhenWidened,
    BaseReversed,
    UuidLengthIsSpace,
    FormatOfFourIsOne,
    RawLengthIsSize,
    UnknownInHex,
    TextMended,
}

#[derive(Clone, Copy, Debug, PartialEq)]
pub enum Fault {
    Row(u8, Knob),
    Slip(Slip),
}

/// The faults that change some answer: a packet without numbers has none to swap.
fn all() -> Vec<Fault> {
    use Knob::*;
    let mut out = Vec::new();
    for Row(op, _, fields, rest, _) in ROWS {
        let items = matches!(rest, Rest::Infos | Rest::Pairs | Rest::Items);
        let numbers = fields.iter().any(|f| f.1 > 1);
        out.extend([Dropped, OtherCase, SizeOneMore, StrictTurned].map(|k| Fault::Row(op, k)));
        out.extend([NeedsOneMoreRoom, WritesOnRefusal, WritesBehind].map(|k| Fault::Row(op, k)));
        let only = |on: bool, knobs: &[Knob]| knobs.iter().filter(|_| on).map(|k| Fault::Row(op, *k)).collect::<Vec<_>>();
        out.extend(only(rest != Rest::Uuid, &[OneMoreToDecode]));
        out.extend(only(rest == Rest::Uuid, &[TakesFourBytes, LongRefused]));
        out.extend(only(fields.len() > 0 && rest != Rest::Uuid && !items, &[OneLessToDecode]));
        out.extend(only(fields.len() > 0, &[FieldMisnamed]));
        out.extend(only(numbers, &[BigEndian]));
        out.extend(only(fields.len() > 1, &[FieldsSwapped]));
        out.extend(only(rest == Rest::Data || items, &[PartOneOn]));
        out.extend(only(items, &[ItemOneLonger, LastItemLost, TailKept]));
    }
    use Slip::*;
    for (op, taken) in [(0x16, 0x17), (0x13, 0x19), (0x0B, 0x21), (0x20, 0x0E), (0x0B, 0x0F), (0x0B, 0x23), (0x52, 0xD2), (0x1E, 0x00)] {
        out.push(Fault::Slip(TakesReply(op, taken)));
    }
    for slip in [
        LongAsFour, IntNeedsExactRoom, IntBigEndian, ReadShortIsSpace, ReadMovesOnRefusal, ConsumeMoves,
        NothingIsThereAfterTheEnd, AppendWritesOnRefusal, SplitAtPosition, TruncateMovesOn, EqualWhenWidened,
        BaseReversed, UuidLengthIsSpace, FormatOfFourIsOne, RawLengthIsSize, UnknownInHex, TextMended,
    ] {
        out.push(Fault::Slip(slip));
    }
    out
}

/// Whether a fault can show in the answer to a request; spares the rest of them their time.
fn may_show(fault: &Fault, request: &Request) -> bool {
    match (fault, request) {
        (Fault::Row(op, _), Request::Packet(b)) => b.first() == Some(op),
        (Fault::Slip(Slip::TakesReply(_, op)), Request::Packet(b)) => b.first() == Some(op),
        (Fault::Row(..) | Fault::Slip(Slip::TakesReply(..)), _) => false,
        (Fault::Slip(_), Request::Packet(_)) => false,
        (Fault::Slip(_), _) => true,
    }
}

/// Status 0 where every fault is found both ways.
pub fn run() -> i32 {
    let faults = all();
    let papers: Vec<Paper> = faults.iter().map(|f| Paper { fault: Some(*f) }).collect();
    let fixed = list::requests();
    let right = Paper::default();
    let by_list: Vec<bool> =
        papers.iter().map(|p| fixed.iter().any(|r| p.reply(r) != right.reply(r))).collect();

    let mut by_compare = vec![false; faults.len()];
    inputs::each(false, &mut |request| {
        for (i, fault) in faults.iter().enumerate() {
            if by_compare[i] || !may_show(fault, &request) {
                continue;
            }
            let reply = papers[i].reply(&request);
            if reply != right.reply(&request) {
                let mut tally = Tally::default();
                judge(&request, &reply, &mut tally);
                by_compare[i] = tally.unlisted() > 0;
            }
        }
        by_compare.contains(&false)
    });

    let missed = |found: &[bool]| faults.iter().zip(found).filter(|(_, f)| !**f).map(|(f, _)| *f).collect::<Vec<_>>();
    for (way, found) in [("the comparison", &by_compare), ("the fixed list", &by_list)] {
        let left = missed(found);
        println!("single faults found by {way}: {} of {}", faults.len() - left.len(), faults.len());
        left.iter().for_each(|f| println!("  not found: {f:X?}"));
    }
    (by_list.contains(&false) || by_compare.contains(&false)) as i32
}
