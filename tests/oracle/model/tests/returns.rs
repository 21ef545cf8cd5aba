//! What is counted since a return to a mark (change request 10), by short lists: the tries, LastQtys and done statuses that
//! the desk's sentence gives, and each reading that is near and false seen to fail on its list.

use model::day::*;
use model::demand::Misread;
use model::events::{self, Filled};
use model::record::Draft;

/// The events before the mark, between the mark and the return, and after it.
struct Returned {
    before: Vec<Draft>,
    between: Vec<Draft>,
    after: Vec<Draft>,
}

impl Returned {
    fn new(before: &[Draft], between: &[Draft], after: &[Draft]) -> Self {
        Self { before: before.to_vec(), between: between.to_vec(), after: after.to_vec() }
    }

    /// The day after it, or what does not hold.
    fn run(&self, misread: Option<Misread>) -> Result<Day, String> {
        let Day(watched) = Day::new();
        let mut watched = watched.misread(misread);
        let send = |watched: &mut model::watch::Watched, drafts: &[Draft]| {
            drafts.iter().try_for_each(|draft| watched.event(&draft.bytes(), 1_024).map(drop))
        };
        send(&mut watched, &self.before)?;
        let image = watched.machine.clone();
        send(&mut watched, &self.between)?;
        watched.returned(image);
        send(&mut watched, &self.after)?;
        Ok(Day(watched))
    }

    /// The right count holds, and leaves so many tries; the false one does not hold.
    fn tries(&self, tries: u32, misread: Misread) {
        let Ok(day) = self.run(None) else { panic!("the right count fails") };
        let order = day.0.machine.order(b"A").expect("booked");
        assert_eq!(order.gateway_cancel.as_ref().expect("a gateway cancel").tries, tries);
        self.fails(misread);
    }

    fn fails(&self, misread: Misread) {
        assert!(self.run(Some(misread)).is_err(), "{misread:?} holds");
        assert!(self.run(None).is_ok());
    }
}

fn nine() -> Draft {
    events::gateway_cancel(b"A")
}

fn failed(downstream: &str) -> Draft {
    events::send_failed(VENUE_1, downstream.as_bytes(), b"down")
}

/// An event that is taken and changes nothing, after which all is counted.
fn nothing() -> Draft {
    events::gateway_cancel(b"B")
}

#[test]
fn a_request_of_the_image_that_is_sent_again_is_not_new() {
    let again = events::send_again(VENUE_1, b"A-1");
    Returned::new(&[nine()], &[], &[again]).tries(1, Misread::SentAgainIsNew);
}

#[test]
fn a_request_of_the_image_whose_send_fails_comes_off() {
    Returned::new(&[nine()], &[], &[failed("A-1")]).tries(0, Misread::HeldFailuresStay);
}

#[test]
fn a_clients_cancel_whose_send_fails_does_not() {
    let waiting = [cancel("c2"), nine()];
    Returned::new(&waiting, &[], &[failed("A-1")]).tries(0, Misread::ClientFailuresComeOff);
}

#[test]
fn the_images_tries_count_until_the_cancel_begins_again() {
    let stuck = [nine(), refused("A-1", None, Some(1))];
    Returned::new(&stuck, &[], &[nine()]).tries(1, Misread::HeldTriesStay);
}

#[test]
fn the_images_tries_are_not_its_requests() {
    Returned::new(&[nine(), failed("A-1")], &[], &[nothing()]).tries(0, Misread::TriesByRequests);
}

#[test]
fn an_answer_is_no_failed_send() {
    let refused = refused("A-1", None, Some(99));
    Returned::new(&[nine()], &[], &[refused]).tries(2, Misread::AnsweredIsFailed);
}

#[test]
fn a_downstream_clordid_that_was_used_before_the_return_is_new() {
    Returned::new(&[], &[nine()], &[nine()]).tries(1, Misread::UsedBeforeIsNotNew);
}

#[test]
fn what_was_put_out_before_the_return_does_not_count() {
    Returned::new(&[nine()], &[], &[nothing()]).tries(1, Misread::PutOutBeforeCounts);
}

#[test]
fn last_qtys_since_and_what_the_image_held_are_cumulative() {
    let fill = |cum: u64| filled(cum, 10, 10 * UNIT, 10 * UNIT);
    let day = Returned::new(&[fill(40)], &[fill(90)], &[fill(70)]);
    day.fails(Misread::HeldQtyLost);
    day.fails(Misread::ToldBeforeCounts);
    let Ok(mut day) = day.run(None) else { panic!("the right count fails") };
    assert_eq!(day.stands(), (b'1', 70 * u128::from(SHARE), 30 * u128::from(SHARE)));
}

#[test]
fn done_means_done_since_the_return() {
    let done = report(b'4', b'4', Filled::default());
    let day = Returned::new(&[], std::slice::from_ref(&done), &[nothing()]);
    day.fails(Misread::DoneBeforeStays);
    // A done status of the image stays.
    let filled = filled(40, 40, 10 * UNIT, 10 * UNIT);
    let Ok(mut day) = Returned::new(&[done], &[], &[filled]).run(None) else { panic!("it does not stay") };
    assert_eq!(day.stands(), (b'4', 0, 0));
}
