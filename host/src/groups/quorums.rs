//! Quorums (src/quorum.rs), held against what is worked by hand; and document 02's i) shown to be able to fail, under wrong rules and wrong
//! definitions. Nothing here is asked of the subject.

use super::examples::{add, remove};
use super::neighbours::{each_step, holds, judged};
use super::Size;
use crate::calls::{numbered, ENTER_JOINT, SIMPLE};
use crate::compare::{Compared, Comparison, Failure};
use crate::model::{Conf, Model, Set, Wrong};
use crate::quorum::{groups_of, how_many, Definition, Pair};
use crate::random::Random;
use crate::show;
use crate::words::{Block, Change, Reply, Request, CAPACITY};

fn voters(conf: &Conf) -> String {
    format!("{}&&{}", show::group(&conf.incoming), show::group(&conf.outgoing))
}

fn conf(incoming: &Set, outgoing: &Set) -> Conf {
    Conf { incoming: incoming.clone(), outgoing: outgoing.clone(), ..Conf::default() }
}

// ** By hand

pub fn by_hand(_: &mut Comparison, random: &mut Random, size: Size) -> Compared {
    counted()?;
    apart_among(2, 8)?;
    if size != Size::Quick {
        apart_among(3, 216)?;
    }
    some_pairs(random, size.pick(100, 2_000, 100_000))?;
    every_size()
}

/// Every choice of incoming and outgoing voters among four ids: how many groups of these and of one more id are quorums.
fn counted() -> Compared {
    let groups = groups_of(&Set::from([1, 2, 3, 4, 5]));
    for conf in confs(4) {
        let found = groups.iter().filter(|group| Definition::Paper.is_quorum(group, &conf)).count();
        let expected = how_many(&conf, 5);
        holds(found == expected, || voters(&conf), || format!("{found} quorums among five ids, expected {expected}"))?;
    }
    Ok(())
}

/// Every configuration with voters among so many ids, and nobody else.
fn confs(ids: u64) -> Vec<Conf> {
    let sets = groups_of(&(1..=ids).collect());
    sets.iter().flat_map(|incoming| sets.iter().map(|outgoing| conf(incoming, outgoing))).collect()
}

/// Whether there are quorums apart, by `apart` and plainly, which have to agree; and those that `apart` finds have to be quorums apart.
fn apart(definition: Definition, before: &Conf, after: &Conf) -> Result<Option<Pair>, Box<Failure>> {
    let (found, plainly) = (definition.apart(before, after), definition.apart_plainly(before, after).err());
    let are_apart = |(first, second): &Pair| {
        definition.is_quorum(first, before) && definition.is_quorum(second, after) && first.is_disjoint(second)
    };
    let as_it_should = found.is_some() == plainly.is_some() && found.iter().all(are_apart);
    let input = || format!("the voters {} and {}, {definition:?}", voters(before), voters(after));
    holds(as_it_should, input, || format!("quorums apart: {found:?}, plainly {plainly:?}"))?;
    Ok(found)
}

/// Every pair of configurations with voters among so many ids: how many have quorums apart. By hand, of two ids: the least quorum is (1)
/// in two configurations, (2) in two, (1 2) in eight, and four have none; apart are (1) and (2), in either order. Of three ids: the least
/// quorum of one is a single id, as in two configurations for each id, and the other can do without that id: it needs another one alone
/// (24 pairs), the two others (2 * 60), any two (2 * 12), or another one and any second (2 * 24).
fn apart_among(ids: u64, expected: usize) -> Compared {
    let confs = confs(ids);
    let mut met = 0;
    for before in &confs {
        for after in &confs {
            met += usize::from(apart(Definition::Paper, before, after)?.is_some());
        }
    }
    let input = || format!("every pair of configurations with voters among {ids} ids");
    holds(met == expected, input, || format!("{met} pairs have quorums apart, expected {expected}"))
}

/// Random pairs of configurations with voters among five ids.
fn some_pairs(random: &mut Random, pairs: usize) -> Compared {
    for _ in 0..pairs {
        let mut set = || -> Set { (1..=5).filter(|_| random.one_in(2)).collect() };
        let (before, after) = (conf(&set(), &set()), conf(&set(), &set()));
        apart(Definition::Paper, &before, &after)?;
    }
    Ok(())
}

/// From so many voters to as many, some of them others: there are quorums apart where two halves and one more each find room among all of
/// these. So it is with outgoing voters who vote nowhere else, and where both are joint with their own incoming voters. Where
/// outgoing voters are the other's incoming ones, as after an enter and before a leave, there are none.
fn every_size() -> Compared {
    let set = |from: usize, count: usize| -> Set { (from as u64..).take(count).collect() };
    for count in 1..=CAPACITY {
        for others in 0..=count {
            let (old, new, nobody) = (set(1, count), set(1 + others, count), Set::new());
            let (here, there) = (set(1_000, count), set(2_000, count));
            let room = 2 * (count / 2 + 1) <= count + others;
            let cases = [
                (conf(&old, &nobody), conf(&new, &nobody), room),
                (conf(&old, &old), conf(&new, &new), room),
                (conf(&old, &here), conf(&new, &there), room),
                (conf(&old, &nobody), conf(&new, &old), false),
                (conf(&old, &new), conf(&new, &nobody), false),
            ];
            for (before, after, expected) in cases {
                let found = (Definition::Paper.apart(&before, &after).is_some(), judged(&before, &after).is_err());
                let input = || format!("the voters {} and {}", voters(&before), voters(&after));
                let what = || format!("quorums apart, sentence broken: {found:?}, expected both {expected}");
                holds(found == (expected, expected), input, what)?;
            }
        }
    }
    Ok(())
}

// ** Wrong on purpose

/// A model and a definition, one of them wrong, and the call and list of the first step that breaks the sentence. Each is from voters (1),
/// and the quorums are (1) and (2). With at least half, (2) is one as soon as it is added. Under the others a voter more or less breaks
/// nothing: it takes one in the place of another.
fn wrong_ones() -> [(Model, Definition, u64, Vec<Change>); 4] {
    let one_for_another = || vec![remove(1), add(2)];
    [
        (Model::with(Wrong::TwoVotersChange), Definition::Paper, SIMPLE, one_for_another()),
        (Model::with(Wrong::OldVotersNotKept), Definition::Paper, ENTER_JOINT, one_for_another()),
        (Model::PAPER, Definition::AtLeastHalf, SIMPLE, vec![add(2)]),
        (Model::PAPER, Definition::IncomingAlone, ENTER_JOINT, one_for_another()),
    ]
}

pub fn broken(_: &mut Comparison, _: &mut Random, _: Size) -> Compared {
    for (model, definition, call, list) in wrong_ones() {
        let found = first_broken(&model, definition)?;
        let (one, two) = (Set::from([1]), Set::from([2]));
        let expected = Some((voters(&conf(&one, &Set::new())), call, list, (one, two)));
        let what = || format!("voters, call, list and quorums {found:?}, expected {expected:?}");
        holds(found == expected, || "the first step that breaks the sentence".to_string(), what)?;
    }
    example_5()?;
    odd_voters(Wrong::TwoVotersChange)?;
    odd_voters(Wrong::OldVotersNotKept)
}

/// The voters before a step, its call and list, and the quorums apart.
type Broken = (String, u64, Vec<Change>, Pair);

fn first_broken(model: &Model, definition: Definition) -> Result<Option<Broken>, Box<Failure>> {
    let mut first = None;
    each_step(&[1], &mut |request| {
        if let (None, Some((before, after))) = (&first, made(model, request)) {
            let pair = apart(definition, &before, &after)?;
            first = pair.map(|pair| (voters(&before), request.call, request.list.changes().collect(), pair));
        }
        Ok(())
    })?;
    Ok(first)
}

/// The configurations before and after a step that a model accepts, if there is an incoming voter before it.
fn made(model: &Model, request: &Request) -> Option<(Conf, Conf)> {
    let mut reply = Box::new(Reply::zero());
    reply.giving_back(&request.state);
    (numbered(request.call)?.paper)(model, request, &mut reply);
    let (before, after) = (Conf::read(&request.state.conf)?, Conf::read(&reply.state.conf)?);
    (reply.number == 0 && !before.incoming.is_empty()).then_some((before, after))
}

/// Example 5, were it accepted: voters (1 2 3), remove 3, add 4. The quorums (2 3) and (1 4) are apart.
fn example_5() -> Compared {
    let (before, after) = (conf(&Set::from([1, 2, 3]), &Set::new()), conf(&Set::from([1, 2, 4]), &Set::new()));
    let quorum = |group: [u64; 2], conf: &Conf| Definition::Paper.is_quorum(&Set::from(group), conf);
    let as_it_should = quorum([2, 3], &before) && quorum([1, 4], &after) && apart(Definition::Paper, &before, &after)?.is_some();
    holds(as_it_should, || "example 5, were it accepted".to_string(), || "(2 3) and (1 4) are no quorums apart".to_string())
}

/// Under either wrong rule two voters can change without a joint configuration. That breaks the sentence from an odd number of voters and
/// from no even one: of 2k + 1 voters k + 1 are a quorum before, with those who go, and the other k one after, with those who come; of 2k
/// it takes k + 1, and the other k - 1 are one too few.
fn odd_voters(rule: Wrong) -> Compared {
    each_step(&[1, 2, 3], &mut |request| {
        let Some((before, after)) = made(&Model::with(rule), request) else { return Ok(()) };
        let changed = before.incoming.symmetric_difference(&after.incoming).count();
        let expected = !after.joint() && changed == 2 && before.incoming.len() % 2 == 1;
        let found = (apart(Definition::Paper, &before, &after)?.is_some(), judged(&before, &after).is_err());
        let what = || format!("{rule:?}: quorums apart, sentence broken: {found:?}, expected both {expected}");
        holds(found == (expected, expected), || show::request(request), what)
    })
}
