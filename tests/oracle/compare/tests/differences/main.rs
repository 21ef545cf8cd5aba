//! The lists of docs/DIFFERENCES.md: where the Rust departs from FIX 4.4 or from what one would
//! expect, each run as the page has it on the Rust and on the library, with what both answer. All on
//! an order limit 100 at 10; the answer stays.

mod page;

use compare::fix::{Judge, LISTED, Objection, objections};
use gateway::book::Output;
use gateway::book::oracle::client;
use model::codes;
use model::record::*;
use page::{NONE, classes, numbers, row, run, texts};

const SHARES: u128 = 10_000;
const UNITS: u128 = 100_000_000;

fn code(character: u8) -> u128 {
    character.into()
}

/// The rows whose tests stand here. 1 and 16 have moved: tests/short.rs of the model.
const TESTED: [u32; 48] = [
    2, 3, 4, 5, 6, 7, 8, 9, 10, 11, 12, 13, 14, 15, 17, 18, 19, 20, 21, 22, 23, 24, 25, 26, 27, 28, 29, 30,
    31, 32, 33, 34, 35, 36, 37, 38, 39, 40, 41, 42, 43, 44, 45, 46, 47, 48, 49, 50,
];

#[test]
fn every_row_with_a_list_is_tested() {
    let mut rows = numbers();
    rows.sort_unstable();
    assert_eq!(rows, TESTED);
}

#[test]
fn the_page_names_the_classes_of_the_judge() {
    assert_eq!(classes(), LISTED.iter().map(|class| format!("{class:?}")).collect());
}

/// What the judge never saw in lists, each shown to it once.
#[test]
fn the_judge_finds_what_never_came() {
    let replaced = row(32);
    for (bit, number, class) in [
        (LEAVES_QTY, 49 * SHARES, Objection::Leaves),
        (ORD_STATUS, code(b'2'), Objection::FilledShort),
        (ORD_STATUS, code(b'0'), Objection::NewWithFills),
        (EXEC_TYPE, code(b'0'), Objection::FillWithoutTrade),
        (SIDE, code(b'Z'), Objection::CodeUnlisted),
    ] {
        let changed = replaced.with(bit, number);
        let (message, _) = Record::read(&changed).expect("a message");
        assert!(!LISTED.contains(&class) && objections(&message).contains(&class), "{class:?}");
    }
    let again = row(26).objected(&mut Judge::default());
    assert!(again.contains(&Objection::ExecIdAgain) && again.contains(&Objection::CumQtyNotTheSum));
    let mut judge = Judge::default();
    assert!(!row(44).objected(&mut judge).contains(&Objection::ToldAfterEnd));
    assert!(row(2).objected(&mut judge).contains(&Objection::ToldAfterEnd));
}

// ---- the Rust against FIX 4.4

#[test]
fn partially_filled_without_fills() {
    assert_eq!(row(2).told([ORD_STATUS, CUM_QTY]), [code(b'1'), 0]);
}

#[test]
fn partially_filled_whole() {
    let whole = row(3);
    assert_eq!(whole.told([ORD_STATUS, LEAVES_QTY]), [code(b'1'), 0]);
    assert_eq!(whole.then("cancel").last(), (vec![CANCEL_MESSAGE], [0, 0]), "it is live");
}

#[test]
fn rejected_with_fills() {
    let told = row(4).told([EXEC_TYPE, ORD_STATUS, CUM_QTY, LEAVES_QTY]);
    assert_eq!(told, [code(b'F'), code(b'8'), 40 * SHARES, 0]);
}

#[test]
fn a_trade_without_a_fill_and_a_price_without_one() {
    assert_eq!(row(5).told([EXEC_TYPE, LAST_QTY, FILL_PRICE]), [code(b'F'), 0, 10 * UNITS]);
}

#[test]
fn a_fill_without_a_price() {
    assert_eq!(row(6).told([LAST_QTY, FILL_PRICE, AVG_PX]), [SHARES, 0, 0]);
}

#[test]
fn an_average_without_fills() {
    assert_eq!(row(7).told([CUM_QTY, AVG_PX, FILL_PRICE]), [0, 10 * UNITS, 10 * UNITS]);
}

#[test]
fn canceled_beside_new() {
    let canceled = row(8);
    assert_eq!(canceled.told([EXEC_TYPE, ORD_STATUS, LEAVES_QTY]), [code(b'4'), code(b'0'), 100 * SHARES]);
    assert_eq!(canceled.then("cancel").last(), (vec![CANCEL_MESSAGE], [0, 0]), "it is live");
}

#[test]
fn new_beside_partially_filled() {
    assert_eq!(row(9).told([EXEC_TYPE, ORD_STATUS, CUM_QTY]), [code(b'0'), code(b'1'), 40 * SHARES]);
}

#[test]
fn a_reason_without_a_rejection() {
    assert_eq!(row(10).told([EXEC_TYPE, ORD_STATUS, REASON, ORIGIN]), [code(b'0'), code(b'8'), 1, 2]);
}

#[test]
fn a_rejection_beside_a_live_status() {
    let rejected = row(11);
    assert_eq!(rejected.told([EXEC_TYPE, ORD_STATUS, REASON]), [code(b'8'), code(b'0'), 5]);
    assert_eq!(rejected.stands([ORD_STATUS, LEAVES_QTY]), [code(b'0'), 100 * SHARES]);
}

#[test]
fn reasons_that_no_list_has() {
    assert_eq!(row(12).told([EXEC_TYPE, REASON, ORIGIN]), [code(b'8'), 16, 2]);
    assert_eq!(row(13).told([REASON, ORIGIN, RESPONSE_TO]), [7, 2, 1]);
}

#[test]
fn an_unknown_order_refused_with_a_live_status() {
    assert_eq!(row(14).told([REASON, ORIGIN, ORD_STATUS]), [1, 2, code(b'A')]);
}

#[test]
fn replaced_without_the_cl_ord_id_it_replaced() {
    assert_eq!(row(15).told([EXEC_TYPE, ORIG_CL_ORD_ID]), [code(b'5'), NONE]);
}

#[test]
fn the_end_of_a_day_beside_another_status() {
    let told = row(28).told([EXEC_TYPE, ORD_STATUS, LEAVES_QTY]);
    assert_eq!(told, [code(b'3'), code(b'0'), 100 * SHARES]);
}

#[test]
fn already_pending_beside_new() {
    let fields = [REASON, ORIGIN, ORD_STATUS, FIXED_TEXT, RESPONSE_TO];
    assert_eq!(row(29).told(fields), [3, 1, code(b'0'), 2, 2]);
    assert_eq!(row(30).told(fields), [3, 1, code(b'0'), 1, 1]);
}

#[test]
fn a_rise_takes_the_exec_type_of_a_cancel() {
    let canceled = row(31);
    let told = canceled.told([EXEC_TYPE, ORD_STATUS, LAST_QTY, LEAVES_QTY, ORIG_CL_ORD_ID]);
    assert_eq!(told, [code(b'F'), code(b'4'), 40 * SHARES, 0, 0]);
    assert_eq!((canceled.text(CL_ORD_ID), canceled.text(ORIG_CL_ORD_ID)), (b"c2".to_vec(), b"c1".to_vec()));
    let again = canceled.then("report 4/4 under A-1, CumQty 40");
    assert_eq!(again.last(), (vec![], [0, 0]), "no 4 follows");
}

#[test]
fn a_rise_takes_the_exec_type_of_a_replace() {
    let replaced = row(32);
    let told = replaced.told([EXEC_TYPE, ORD_STATUS, LAST_QTY, QTY, LEAVES_QTY]);
    assert_eq!(told, [code(b'F'), code(b'1'), 40 * SHARES, 90 * SHARES, 50 * SHARES]);
    assert_eq!((replaced.text(CL_ORD_ID), replaced.text(ORIG_CL_ORD_ID)), (b"c2".to_vec(), b"c1".to_vec()));
    let again = replaced.then("report 5/1 under A-1, CumQty 40");
    assert_eq!(again.told([EXEC_TYPE, ORIG_CL_ORD_ID]), [code(b'5'), NONE], "unless the venue repeats it");
}

#[test]
fn a_pending_cancel_is_told_off_by_another_requests_refusal() {
    let refused = row(33);
    assert_eq!(refused.told_at(3, [EXEC_TYPE, ORD_STATUS]), [code(b'6'), code(b'6')]);
    assert_eq!(refused.told([ORD_STATUS, REASON, RESPONSE_TO]), [code(b'0'), 99, 2]);
    let again = refused.then("cancel reject of A-1");
    assert_eq!(again.told([ORD_STATUS, REASON, RESPONSE_TO]), [code(b'0'), 99, 1], "A-1 was unanswered");
}

#[test]
fn a_restated_order_keeps_its_quantity() {
    let fields = [EXEC_TYPE, ORD_STATUS, QTY, LEAVES_QTY];
    assert_eq!(row(34).told(fields), [code(b'D'), code(b'0'), 100 * SHARES, 100 * SHARES]);
    assert_eq!(row(35).told(fields), [code(b'5'), code(b'0'), 100 * SHARES, 100 * SHARES]);
}

#[test]
fn an_end_is_told_as_a_status_report() {
    let ended = row(44);
    assert_eq!(ended.told([EXEC_TYPE, ORD_STATUS, LEAVES_QTY]), [code(b'I'), code(b'4'), 0]);
    assert_eq!(ended.then("report 4/4").last(), (vec![], [0, 0]), "no 4 follows");
}

#[test]
fn replaced_is_told_with_the_old_terms() {
    for (number, status) in [(45, b'0'), (46, b'E')] {
        let told = row(number).told([EXEC_TYPE, ORD_STATUS, QTY, LEAVES_QTY]);
        assert_eq!(told, [code(b'5'), code(status), 100 * SHARES, 100 * SHARES]);
        let pending = row(number).then("replace to 80");
        assert_eq!(pending.told([REASON, FIXED_TEXT]), [3, 2], "it is pending");
    }
}

#[test]
fn an_end_is_told_by_a_cancel_reject_alone() {
    let ended = row(47);
    assert_eq!(ended.last(), (vec![REJECT_MESSAGE], [0, 0]));
    assert_eq!(ended.told([ORD_STATUS, REASON, ORIGIN]), [code(b'4'), 99, 1]);
    assert_eq!(ended.stands([ORD_STATUS, LEAVES_QTY]), [code(b'4'), 0]);
}

#[test]
fn a_refused_cancel_leaves_an_order_pending_cancel() {
    let refused = row(48);
    assert_eq!(refused.told([ORD_STATUS, REASON]), [code(b'6'), 99]);
    let new = refused.then("report 0/0");
    assert_eq!(new.last(), (vec![], [0, 0]));
    assert_eq!(new.stands([ORD_STATUS]), [code(b'6')]);
}

#[test]
fn a_fill_is_told_under_the_cancels_cl_ord_ids() {
    let filled = row(49);
    assert_eq!(filled.told([EXEC_TYPE, ORD_STATUS, LAST_QTY]), [code(b'F'), code(b'1'), 40 * SHARES]);
    assert_eq!((filled.text(CL_ORD_ID), filled.text(ORIG_CL_ORD_ID)), (b"c2".to_vec(), b"c1".to_vec()));
}

// ---- the Rust against what one would expect

#[test]
fn a_gateway_cancel_refused_as_unknown_and_rejected_ends_an_order_unheard() {
    let ended = row(17);
    assert_eq!(ended.last(), (vec![], [0, 0]));
    assert_eq!(ended.stands([ORD_STATUS, CUM_QTY, LEAVES_QTY]), [code(b'8'), 40 * SHARES, 0]);
}

#[test]
fn a_cancel_refused_as_unknown_and_rejected_ends_an_order_and_its_fill_is_not_told() {
    let ended = row(50);
    assert_eq!(ended.told_at(3, [ORD_STATUS, REASON]), [code(b'8'), 1]);
    assert_eq!(ended.last(), (vec![], [5, 0]));
    assert_eq!(ended.stands([ORD_STATUS, CUM_QTY, LEAVES_QTY]), [code(b'8'), 0, 0]);
}

#[test]
fn a_refusal_takes_an_order_back_to_pending_new() {
    let failed = row(18);
    assert_eq!(failed.told_at(3, [ORD_STATUS]), [code(b'A')]);
    assert_eq!(failed.told([EXEC_TYPE, ORD_STATUS, REASON]), [code(b'8'), code(b'8'), 99]);
}

#[test]
fn a_request_rejected_by_a_report_loses_its_fill() {
    let rejected = row(19);
    assert_eq!(rejected.last(), (vec![REJECT_MESSAGE], [0, 0]));
    assert_eq!(rejected.stands([ORD_STATUS, CUM_QTY, LEAVES_QTY]), [code(b'1'), 0, 100 * SHARES]);
}

#[test]
fn a_replace_accepted_below_what_is_filled_stays_pending() {
    let accepted = row(20);
    assert_eq!(accepted.last(), (vec![], [2, 0]));
    assert_eq!(accepted.then("replace to 50").told([REASON, FIXED_TEXT]), [3, 2]);
}

#[test]
fn a_replace_to_nothing_goes_out() {
    let replaced = row(21);
    assert_eq!(replaced.last(), (vec![REPLACE_MESSAGE], [0, 0]));
    assert_eq!(replaced.told([QTY]), [0]);
}

#[test]
fn a_corrected_average_without_a_fill_is_dropped() {
    let corrected = row(22);
    assert_eq!(corrected.told_at(1, [CUM_QTY, AVG_PX]), [40 * SHARES, 10 * UNITS]);
    assert_eq!(corrected.last(), (vec![], [0, 0]));
    assert_eq!(corrected.stands([CUM_QTY, AVG_PX]), [40 * SHARES, 10 * UNITS]);
}

#[test]
fn a_cancel_reject_that_names_the_order_itself_resumes_the_gateways_cancel() {
    assert_eq!(row(23).last(), (vec![CANCEL_MESSAGE], [0, 0]));
}

#[test]
fn a_fill_under_the_gateways_cancel_is_told_as_pending_cancel_and_the_way_back_is_not_told() {
    let refused = row(36);
    assert_eq!(refused.said(3), (vec![], [0, 0]), "the client does not hear of PendingCancel");
    assert_eq!(refused.told_at(4, [EXEC_TYPE, ORD_STATUS, LAST_QTY]), [code(b'F'), code(b'6'), 40 * SHARES]);
    assert_eq!(refused.last(), (vec![], [1, 0]));
    assert_eq!(refused.stands([ORD_STATUS]), [code(b'1')]);
}

#[test]
fn rejected_in_a_status_report_ends_an_order_unless_it_is_unknown() {
    let ended = row(37);
    assert_eq!(ended.last(), (vec![REPORT_MESSAGE], [0, 0]));
    let told = ended.told([EXEC_TYPE, ORD_STATUS, LEAVES_QTY, REASON]);
    assert_eq!(told, [code(b'I'), code(b'8'), 0, NONE]);
    assert_eq!(ended.then("cancel").told([REASON, FIXED_TEXT]), [0, 7], "it is done");
    let unknown = row(38);
    assert_eq!(unknown.last(), (vec![], [4, 0]));
    assert_eq!(unknown.stands([ORD_STATUS, LEAVES_QTY]), [code(b'0'), 100 * SHARES]);
}

#[test]
fn any_status_but_pending_replace_accepts_a_replace() {
    let fields = [EXEC_TYPE, ORD_STATUS, QTY, LEAVES_QTY];
    for (number, exec_type, status) in [(39, b'E', b'0'), (40, b'6', b'6')] {
        let accepted = row(number);
        assert_eq!(accepted.told(fields), [code(exec_type), code(status), 90 * SHARES, 90 * SHARES]);
        assert_eq!(accepted.then("cancel reject of A-1").last(), (vec![], [0, 0]), "it is answered");
    }
}

#[test]
fn too_late_beside_new() {
    assert_eq!(row(41).told([REASON, ORIGIN, ORD_STATUS]), [0, 2, code(b'0')]);
}

#[test]
fn a_duplicate_of_no_order_is_rejected() {
    let refused = row(43);
    assert_eq!(refused.told([REASON, ORIGIN, ORD_STATUS, NAME, FIXED_TEXT]), [6, 1, code(b'8'), NONE, 5]);
}

#[test]
fn an_unsolicited_pending_cancel_is_not_taken_back() {
    let pending = row(42);
    assert_eq!(pending.said(3), (vec![], [0, 0]), "0 is behind");
    assert_eq!(pending.told([EXEC_TYPE, ORD_STATUS, CUM_QTY]), [code(b'F'), code(b'6'), 40 * SHARES]);
    assert_eq!(pending.stands([ORD_STATUS]), [code(b'6')]);
}

// ---- as FIX messages, and after a return to a mark

#[test]
fn a_reject_with_reason_1_carries_the_orders_name() {
    let refused = row(24);
    assert_eq!((refused.text(NAME), refused.told([REASON, ORIGIN])), (b"A".to_vec(), [1, 2]));
}

#[test]
fn a_restatement_is_passed_on_without_its_reason() {
    assert_eq!(row(25).told([EXEC_TYPE, ORD_STATUS, REASON]), [code(b'D'), code(b'0'), NONE]);
}

#[test]
fn a_report_sequence_comes_again_after_a_return() {
    let filled = row(26);
    assert_eq!(filled.told_at(2, [REPORT_SEQUENCE, LAST_QTY]), [2, 40 * SHARES]);
    assert_eq!(filled.told([REPORT_SEQUENCE, LAST_QTY]), [2, 70 * SHARES]);
}

#[test]
fn a_downstream_cl_ord_id_comes_again_after_a_return() {
    let replaced = row(27);
    assert_eq!((replaced.said(1).0, replaced.last().0), (vec![CANCEL_MESSAGE], vec![REPLACE_MESSAGE]));
    assert_eq!(replaced.text(DOWNSTREAM), b"A-1");
}

// ---- the Rust against docs/SCOPE.md

/// The Rust's `book_order` makes a name of its prefix, here none, and a number, and puts the order out.
#[test]
fn a_booking_puts_nothing_out() {
    let booked = run("book");
    assert_eq!(booked.last(), (vec![], [0, 0]));
    let mut book = gateway::book::Book::with_setting(10_000);
    let bytes = booked.event();
    let record = Record::read_event(&bytes).expect("a booking");
    let out = book.book_whole(client(1), model::machine::order_request(&record), "1".into());
    let [Output::NewOrder { venue, downstream, request }] = &out[..] else { panic!("{out:?}") };
    assert_eq!((venue.as_str(), downstream.as_str(), request.cl_ord_id.as_str()), ("1", "1", "c1"));
}

#[test]
fn the_words_of_fixed_texts_are_not_the_rusts() {
    let texts = texts();
    assert_eq!(texts.iter().map(|text| text.0).collect::<Vec<u8>>(), (1..=11).collect::<Vec<u8>>());
    for (number, written, rusts) in texts {
        assert_eq!(codes::fixed_text(rusts), number);
        assert_eq!(written == rusts, [2, 6, 7, 10].contains(&number), "text {number}");
    }
}
