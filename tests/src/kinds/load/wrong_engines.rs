//! Engines with one fault each, which calls under load have to find.

use super::{ENGINE, Engine, FUNCTIONS, LONG, run};
use crate::engine::REFUSAL;
use crate::kinds::meshes::ROOM;
use crate::kinds::tests;
use crate::plan::Plan;

/// Whether so many calls find a fault.
fn fails(calls: u64, engine: &Engine) -> bool {
    tests::fails(|report, _| run(report, &Plan::tiny(), calls, engine))
}

/// Whether an engine with this change is found.
fn caught(change: fn(&mut Engine)) -> bool {
    let mut engine = ENGINE;
    change(&mut engine);
    fails(10_000, &engine)
}

#[test]
fn a_right_engine_passes_and_gives_every_refusal() {
    assert!(!fails(LONG, &ENGINE));
}

#[test]
fn every_function_of_the_header_is_called() {
    let header = include_str!("../../../../include/zirwennach.h");
    let declared = header.lines().filter_map(|line| {
        let line = line
            .strip_prefix("uint64_t ")
            .or(line.strip_prefix("double "))?;
        Some(line.split_once('(')?.0)
    });
    let mut declared: Vec<&str> = declared.collect();
    let mut called = FUNCTIONS.map(|function| function.name);
    declared.sort_unstable();
    called.sort_unstable();
    assert_eq!(declared, called);
}

#[test]
fn wrong_numbers_are_caught() {
    assert!(caught(|engine| engine.root = |x| x * 0.5));
    assert!(caught(|engine| engine.answer = |_, _, _| 0));
    assert!(caught(|engine| engine.weld = |_, _| 0));
    assert!(caught(|engine| engine.build = |_, _| 0));
    assert!(caught(|engine| engine.check = |_, _, _| 0));
    assert!(caught(|engine| engine.contains = |_, _, _, _| 0));
    assert!(caught(|engine| engine.point_list = |_, _| 0));
}

#[test]
fn wrong_places_are_caught() {
    fn off(answer: u64) -> u64 {
        answer + u64::from(answer >= REFUSAL)
    }
    assert!(caught(|engine| {
        engine.answer = |shape, list, point| off((ENGINE.answer)(shape, list, point));
    }));
    assert!(caught(
        |engine| engine.weld = |list, welded| off((ENGINE.weld)(list, welded))
    ));
    assert!(caught(
        |engine| engine.build = |mesh, tree| off((ENGINE.build)(mesh, tree))
    ));
    assert!(caught(|engine| {
        engine.check = |mesh, tree, work| off((ENGINE.check)(mesh, tree, work));
    }));
    assert!(caught(|engine| {
        engine.contains = |mesh, tree, work, list| off((ENGINE.contains)(mesh, tree, work, list));
    }));
    assert!(caught(|engine| {
        engine.point_list = |text, listing| off((ENGINE.point_list)(text, listing));
    }));
}

/// Changes a list, if there is an element.
fn touch<T: Default>(list: &mut [T]) {
    if let Some(last) = list.last_mut() {
        *last = T::default();
    }
}

#[test]
fn writes_to_lists_that_are_only_read_are_caught() {
    assert!(caught(|engine| {
        engine.answer = |shape, list, point| {
            let answer = (ENGINE.answer)(shape, list, point);
            touch(list);
            answer
        };
    }));
    assert!(caught(|engine| {
        engine.weld = |list, welded| {
            let answer = (ENGINE.weld)(list, welded);
            touch(list);
            answer
        };
    }));
    assert!(caught(|engine| {
        engine.build = |mesh, tree| {
            let answer = (ENGINE.build)(mesh, tree);
            touch(mesh.corners);
            answer
        };
    }));
    assert!(caught(|engine| {
        engine.check = |mesh, tree, work| {
            let answer = (ENGINE.check)(mesh, tree, work);
            touch(tree.boxes);
            answer
        };
    }));
    assert!(caught(|engine| {
        engine.contains = |mesh, tree, work, list| {
            let answer = (ENGINE.contains)(mesh, tree, work, list);
            touch(list.points);
            answer
        };
    }));
    assert!(caught(|engine| {
        engine.point_list = |text, listing| {
            let answer = (ENGINE.point_list)(text, listing);
            touch(text);
            answer
        };
    }));
}

#[test]
fn writes_past_the_written_part_are_caught() {
    assert!(caught(|engine| {
        engine.weld = |list, welded| {
            let answer = (ENGINE.weld)(list, welded);
            touch(welded.mesh.ends);
            answer
        };
    }));
    assert!(caught(|engine| {
        engine.build = |mesh, tree| {
            let answer = (ENGINE.build)(mesh, tree);
            touch(tree.nodes);
            answer
        };
    }));
    assert!(caught(|engine| {
        engine.check = |mesh, tree, work| {
            let answer = (ENGINE.check)(mesh, tree, work);
            touch(work);
            answer
        };
    }));
    assert!(caught(|engine| {
        engine.contains = |mesh, tree, work, list| {
            let answer = (ENGINE.contains)(mesh, tree, work, list);
            if answer >= REFUSAL {
                touch(list.answers);
            }
            answer
        };
    }));
    assert!(caught(|engine| {
        engine.point_list = |text, listing| {
            let answer = (ENGINE.point_list)(text, listing);
            if answer == ROOM {
                touch(listing);
            }
            answer
        };
    }));
}
