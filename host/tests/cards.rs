//! Changing a card as docs/FITTER.md says, with the plug pulled before and after every store on the way: up to the last
//! store of the second checkpoint the old card is the box's own, from then on the new one; the other is refused.

mod place;

use paviluko_host::card::Card;
use paviluko_host::files::Disk;
use paviluko_host::folder::BoxFolder;
use paviluko_host::runner::{Moment, Runner, Stop};
use paviluko_host::transaction::{self, Write};
use paviluko_host::{Reading, Refusal};

use place::Place;

/// Stores of a checkpoint, a truncation and a checkpoint.
const STORES: u64 = 3 + 9 + 3;

/// A box with a few readings, some of them behind a checkpoint.
fn box_with_readings(place: &Place) -> Runner {
    let folder = place.join("box");
    BoxFolder::create(&folder, Disk::Quick).expect("made");
    let mut runner = Runner::open(&folder, Disk::Quick).expect("opened");
    runner.start().expect("started");
    for turn in 0..40u16 {
        let writes = [Write { meter: turn, code: 1, reading: i32::from(turn) * 3 }];
        runner.take((turn % 8) as u8, &transaction::bytes(u64::from(turn), &writes)).expect("taken");
        if turn == 20 {
            runner.point(None).expect("set");
            runner.checkpoint().expect("made");
        }
    }
    runner
}

fn readings(runner: &Runner) -> Vec<(u8, Reading)> {
    runner.collector().expect("power").readings()
}

/// The steps of the page.
fn change(runner: &mut Runner, new: &std::path::Path) -> Result<(), Stop> {
    runner.point(None)?;
    runner.checkpoint()?;
    runner.truncate(None)?;
    runner.swap_card(new)?;
    runner.checkpoint()?;
    Ok(())
}

/// What a start with a card comes to: 0, or the number on the display.
fn number(runner: &mut Runner, card: &std::path::Path) -> u8 {
    runner.swap_card(card).expect("put in");
    match runner.start() {
        Ok(_) => 0,
        Err(Stop::Refused(Refusal { number, .. })) => number,
        Err(stop) => panic!("{stop}"),
    }
}

#[test]
fn a_change_cut_anywhere_leaves_one_card_that_is_taken() {
    for store in 1..=STORES {
        for moment in [Moment::Before, Moment::After] {
            let place = Place::new(&format!("change-{store}-{moment}"));
            let mut runner = box_with_readings(&place);
            let visible = readings(&runner);
            let old = runner.card().expect("there").folder().to_path_buf();
            let new = place.join("new");
            Card::create(&new, Disk::Quick).expect("made");
            runner.cut_at(store, moment);
            assert!(matches!(change(&mut runner, &new), Err(Stop::Cut { .. })));

            let (own, other) = if (store, moment) == (STORES, Moment::After) { (&new, &old) } else { (&old, &new) };
            assert!([9, 12].contains(&number(&mut runner, other)), "store {store}, {moment}: the other card");
            assert_eq!(number(&mut runner, own), 0, "store {store}, {moment}: its own card");
            assert_eq!(readings(&runner), visible);
            assert!([9, 12].contains(&number(&mut runner, other)), "store {store}, {moment}: the other card, later");
        }
    }
}

#[test]
fn a_copied_card_is_as_good_until_one_of_both_goes_on() {
    let place = Place::new("copied");
    let mut runner = box_with_readings(&place);
    let visible = readings(&runner);
    let old = runner.card().expect("there").folder().to_path_buf();
    runner.cut();
    runner.copy_card(&place.join("copy")).expect("copied");
    assert_eq!(number(&mut runner, &place.join("copy")), 0);
    assert_eq!(readings(&runner), visible);
    assert_eq!(number(&mut runner, &old), 12);
}

#[test]
fn a_card_swapped_in_service_is_mended_by_a_point_a_checkpoint_and_a_truncation() {
    let place = Place::new("mended");
    let mut runner = box_with_readings(&place);
    let visible = readings(&runner);
    Card::create(&place.join("new"), Disk::Quick).expect("made");
    runner.swap_card(&place.join("new")).expect("put in");
    runner.point(None).expect("set");
    runner.checkpoint().expect("made");
    runner.truncate(None).expect("truncated");
    runner.cut();
    assert!(runner.start().is_ok());
    assert_eq!(readings(&runner), visible);
}

#[test]
fn readings_on_two_cards_are_put_together_on_one() {
    let place = Place::new("together");
    let mut runner = box_with_readings(&place);
    let old = runner.card().expect("there").folder().to_path_buf();
    let new = place.join("new");
    Card::create(&new, Disk::Quick).expect("made");
    runner.swap_card(&new).expect("put in");
    let writes = [Write { meter: 3, code: 1, reading: 99 }];
    runner.take(2, &transaction::bytes(900, &writes)).expect("taken");
    runner.point(None).expect("set");
    runner.checkpoint().expect("made");
    let visible = readings(&runner);
    runner.cut();
    assert_eq!(number(&mut runner, &new), 11);
    assert_eq!(number(&mut runner, &old), 12);
    // All files of both on the old card: checkpoints to checkpoints, records to records.
    for (from, to) in [("checkpoints", "checkpoints"), ("records.0", "records.1")] {
        for entry in std::fs::read_dir(new.join(from)).expect("there") {
            let entry = entry.expect("read");
            std::fs::copy(entry.path(), old.join(to).join(entry.file_name())).expect("copied");
        }
    }
    assert_eq!(number(&mut runner, &old), 0);
    assert_eq!(readings(&runner), visible);
}

#[test]
fn a_store_that_cannot_be_done_stops_the_box() {
    let place = Place::new("stopped");
    let mut runner = box_with_readings(&place);
    let visible = readings(&runner);
    let card = runner.card().expect("there").folder().to_path_buf();
    // The card is gone when the record is to be written.
    std::fs::rename(&card, place.join("elsewhere")).expect("renamed");
    let writes = transaction::bytes(90, &[Write { meter: 3, code: 1, reading: 9 }]);
    assert!(matches!(runner.take(1, &writes), Err(Stop::Store { .. })));
    assert!(matches!(runner.take(1, &writes), Err(Stop::Off)));
    std::fs::rename(place.join("elsewhere"), &card).expect("renamed");
    assert_eq!(runner.start().expect("started").stores, 24);
    assert_eq!(readings(&runner), visible);
}
