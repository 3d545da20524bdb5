//! Lists of points in the sample.

use csx::{Polyhedron, Vec3};

use super::record::{ANSWERS, Kind, POINTS, Record, WORK, WRITTEN};
use super::{LARGE, Wanted, collect, each, refusals, refused};
use crate::engine::Point;
use crate::kinds::answer::{Answer, UNDECIDED};
use crate::kinds::lists::answers::case;
use crate::kinds::lists::by_csx::{EQUAL_VOTES, OWN_BOX, bvh, by_rule, entry};
use crate::kinds::lists::cases::{self, CASES};
use crate::kinds::lists::expected::Prepared;
use crate::kinds::lists::inputs::SORTS;
use crate::kinds::lists::refusals::{Owned, faulty};
use crate::kinds::meshes::Mesh;
use crate::kinds::meshes::inputs::pick;
use crate::kinds::trees::checking::OF_OTHER_MESHES;
use crate::kinds::trees::expected::own_boxes;
use crate::kinds::trees::inputs::LATER;
use crate::kinds::trees::{Tree, built, others};
use crate::random::Random;

/// How many elements the lists of a record have at most, and those of a large mesh.
const ELEMENTS: usize = 240;
const LARGE_ELEMENTS: usize = 580;

pub fn records(random: &mut Random) -> Result<Vec<Record>, String> {
    let mut records = kept();
    records.extend(collect(wanted(), || list(random))?);
    Ok(records)
}

fn wanted() -> Vec<Wanted> {
    let mut wanted = each(&SORTS.map(|sort| sort.name), 4);
    wanted.extend(each(&["the builder's tree", "another tree"], 10));
    wanted.extend(each(&["open", "closed", "undecided", EQUAL_VOTES], 5));
    wanted.extend(each(&["inside", "outside"], 16));
    wanted.extend(each(&["large", OWN_BOX], 2));
    wanted.extend(each(&OF_OTHER_MESHES, 1));
    wanted.extend(refusals(9, 2));
    wanted
}

/// The kept cases, each mesh with all of its points.
fn kept() -> Vec<Record> {
    let cases = CASES.chunk_by(|a, b| a.cubes == b.cubes);
    let record = |cases: &[cases::Case]| {
        let points: Vec<Point> = cases.iter().map(|case| case.point).collect();
        let mesh = cases::mesh(cases[0].cubes);
        let tree = built(&mesh);
        of_call(&owned(mesh, tree, &points, 0))
    };
    cases.map(record).collect()
}

/// A call with so many more work places than are needed.
fn owned(mesh: Mesh, tree: Tree, points: &[Point], more: usize) -> Owned {
    Owned {
        work: mesh.corners.len() + more,
        answers: points.len(),
        points: points.concat(),
        mesh,
        tree,
    }
}

fn list(random: &mut Random) -> Record {
    let record = match random.below(4) {
        0 => {
            let call = faulty(random);
            let answer = call.call().want();
            let record = of_call(&call);
            match answer {
                // a list of few points shows little
                0 => record.unwanted(),
                _ => record.show(refused(answer)),
            }
        }
        1 => of_another_mesh(random),
        _ => of_the_mesh(random),
    };
    of_size(record)
}

/// The record, unwanted if it is too long. A large mesh may take more elements, and is
/// taken for its size alone.
fn of_size(record: Record) -> Record {
    match record.shows.iter().any(|what| what == "large") {
        true => record.unwanted().show("large").at_most(LARGE_ELEMENTS),
        false => record.at_most(ELEMENTS),
    }
}

/// 8 to 16 points of a mesh of any sort, with the builder's tree or another.
fn of_the_mesh(random: &mut Random) -> Record {
    let sort = &SORTS[pick(SORTS.len(), random)];
    let (mesh, points) = case(sort, 8 + pick(9, random), random);
    let tree = others::any(&own_boxes(&mesh), random);
    let which = match tree == built(&mesh) {
        true => "the builder's tree",
        false => "another tree",
    };
    let record = of_call(&owned(mesh, tree, &points, pick(3, random)));
    record.show(sort.name).show(which)
}

/// The same with a tree of the mesh before a vertex was moved, or before it was
/// reordered or renumbered.
fn of_another_mesh(random: &mut Random) -> Record {
    let sort = &SORTS[pick(SORTS.len(), random)];
    let (old, points) = case(sort, 8, random);
    let tree = others::any(&own_boxes(&old), random);
    let (name, form) = LATER[pick(LATER.len(), random)];
    let owned = owned(form(&old, random), tree, &points, pick(3, random));
    let answer = match owned.call().want() {
        0 => "accepted",
        _ => "refused",
    };
    of_call(&owned).show(format!("{name} and {answer}"))
}

/// The record of a call, which shows what its answers are.
fn of_call(owned: &Owned) -> Record {
    let call = owned.call();
    let want = call.want();
    let (answers, shows) = match want {
        0 => by_csx(owned),
        _ => Default::default(),
    };
    let record = Record::new(Kind::List)
        .mesh(0, &owned.mesh)
        .tree(0, &owned.tree)
        .list(POINTS, &owned.points)
        .room(WORK, owned.work)
        .room(ANSWERS, owned.answers)
        .returned(want)
        .list(WRITTEN + WORK, &call.work_left(want))
        .list(WRITTEN + ANSWERS, &answers);
    shows.into_iter().fold(record, Record::show)
}

/// csx's answers over the lent tree, and what they show.
fn by_csx(owned: &Owned) -> (Vec<u8>, Vec<String>) {
    let rule = Prepared::new(&owned.mesh);
    let csx = owned.mesh.csx().expect("an accepted mesh");
    let mut lent = csx.clone();
    lent.bvh = bvh(&owned.tree);
    let mut shows = vec![if rule.closed { "closed" } else { "open" }.to_string()];
    if owned.mesh.triangle_count() >= LARGE {
        shows.push("large".into());
    }
    let mut answers = Vec::new();
    for p in owned.points.as_chunks().0 {
        let p = Vec3(*p);
        let answer = lent.answer(p).map_or(UNDECIDED, u64::from);
        shows.push(Answer(answer).to_string());
        shows.extend(parted(&csx, &rule, p, answer).map(String::from));
        answers.push(answer as u8);
    }
    shows.sort_unstable();
    shows.dedup();
    (answers, shows)
}

/// Which entry of the closed list explains that csx without the feature `port` answers
/// otherwise, if it does.
fn parted(csx: &Polyhedron, rule: &Prepared, p: Vec3, answer: u64) -> Option<&'static str> {
    if by_rule(csx, rule, p, false, false) == answer {
        return None;
    }
    entry(csx, rule, p, answer)
}

#[cfg(test)]
mod tests {
    use super::*;

    #[test]
    fn kept_cases_have_their_answers_and_entries() {
        let records = kept();
        let lists = records
            .iter()
            .map(|record| &record.lists[WRITTEN + ANSWERS]);
        assert!(lists.flatten().eq(CASES.iter().map(|case| &case.answer)));
        for entry in [OWN_BOX, EQUAL_VOTES] {
            assert!(records.iter().any(|r| r.shows.iter().any(|s| s == entry)));
        }
    }
}
