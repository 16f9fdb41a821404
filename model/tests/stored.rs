//! The stored list of damaged tables: it is the one that is made now, the model gives its verdicts when it is read back, and
//! the calls keep sound tables sound, also those that no call makes.

use model::calls::{allocate, deallocate, grow};
use model::list::read;
use model::random::Stream;
use model::rules::{audit, LONGEST};
use model::tables::{Kind, Rect, Tables};
use std::fs;

fn stored() -> String {
    fs::read_to_string(concat!(env!("CARGO_MANIFEST_DIR"), "/../crates/damaged/stdin")).expect("crates/damaged/stdin")
}

#[test]
fn made_again() {
    let list = model::damage::whole();
    assert!(list.text == stored(), "crates/damaged/stdin is another list; see docs/MODEL.md");
    assert!((1_000_000..=3_000_000).contains(&list.text.len()));
}

#[test]
fn read_back() {
    let mut verdicts = 0;
    read(&stored(), |tables, verdict| {
        assert_eq!(audit(tables), verdict);
        verdicts += 1;
    });
    assert!(verdicts >= 15_000);
}

fn area(place: Rect) -> i64 {
    place.width() * place.height()
}

fn apart(one: Rect, two: Rect) -> bool {
    one.x1 <= two.x0 || two.x1 <= one.x0 || one.y1 <= two.y0 || two.y1 <= one.y0
}

/// What 01 says of sound tables: the area on live tickets plus free area is width times height. And no two leaves overlap.
fn covers(tables: &Tables) {
    let places: Vec<Rect> = tables
        .live()
        .into_iter()
        .filter(|&slot| tables.kind(slot) != Kind::Container)
        .map(|slot| tables.slot(slot).rect)
        .collect();
    let sheet = i64::from(tables.head.width) * i64::from(tables.head.height);
    assert_eq!(places.iter().map(|&place| area(place)).sum::<i64>(), sheet);
    for (number, &place) in places.iter().enumerate() {
        assert!(places[..number].iter().all(|&other| apart(place, other)));
    }
}

#[test]
fn sound_stays_sound() {
    let mut stream = Stream::new(5);
    let (mut calls, mut answers) = (0, [0; 13]);
    let mut done = |answer: u32, tables: &Tables| {
        assert_ne!(answer, 2);
        assert_eq!(audit(tables), (0, 0));
        answers[answer as usize] += 1;
        calls += 1;
    };
    read(&stored(), |tables, verdict| {
        if verdict != (0, 0) {
            return;
        }
        covers(tables);
        // Exactly 6 where no Free rectangle is as wide and as tall; alignment is 1 here unless a damage says otherwise.
        let mut lent = tables.clone();
        let (width, height) = (stream.between(1, tables.head.width), stream.between(1, tables.head.height));
        let (answer, _, _) = allocate(&mut lent, width, height);
        if (tables.head.options.align_width, tables.head.options.align_height) == (1, 1) {
            let fits = tables.free().into_iter().any(|free| {
                let place = tables.slot(free).rect;
                place.width() >= width.into() && place.height() >= height.into()
            });
            assert_eq!(answer == 6, !fits);
        }
        done(answer, &lent);
        let mut lent = tables.clone();
        let wider = (tables.head.width + stream.between(0, 2)).min(LONGEST);
        let taller = (tables.head.height + stream.between(0, 2)).min(LONGEST);
        done(grow(&mut lent, wider, taller), &lent);
        let mut lent = tables.clone();
        while let Some(slot) = lent.live().into_iter().find(|&slot| lent.kind(slot) == Kind::Alloc) {
            let ticket = slot + (u32::from(lent.generations[slot as usize]) << 24);
            done(deallocate(&mut lent, ticket), &lent);
        }
        let root = lent.slot(lent.head.root);
        assert_eq!((lent.live(), root.kind), (vec![lent.head.root], Kind::Free));
    });
    println!("{calls} calls on sound tables, by answer {answers:?}");
    assert!(answers[0] > 10_000 && answers[6] > 100 && answers[7] > 100);
}
