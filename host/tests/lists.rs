//! Gather lists: check and planner beside those of the second implementation, and the list call beside its grants one after another.

mod common;
mod random;

use common::{lent, Answer, Both, Call, List};
use random::lists::list;
use random::{all_seen, block, kind, next_call, Numbers, Seen, UNDAMAGED};
use slotpool::{check_list, plan_list, Refusal, ENTRIES};

/// Caps in their range, at its ends and at those of a class, and caps that are not.
const CAPS: [usize; 14] = [1, 2, 3, 12, 13, 160, 4095, 65_536, 131_050, 131_051, 0, 131_052, 131_053, usize::MAX];

#[test]
fn refusals_have_names() {
    use Refusal::{BadAlignment, BadArena, BadProposal, NoRoom, NotInPlace, Stale, TooLong};
    let names = [BadArena, NoRoom, TooLong, Stale, NotInPlace, BadAlignment, BadProposal].map(|refusal| refusal.to_string());
    assert_eq!(names, ["bad arena", "no room", "list too long", "stale", "not in place", "bad alignment", "bad proposal"]);
}

/// Checks a proposal in both implementations: whether it is accepted.
fn check(length: usize, cap: usize, sizes: &[usize]) -> bool {
    let accepted = check_list(length, cap, sizes);
    let second = slotpool_reference::check_list(length, cap, sizes);
    assert_eq!(accepted, second, "the check, beside the second one, of {length} bytes under a cap of {cap} as {sizes:?}");
    accepted
}

/// Counts how many were refused and how many not, of which there are both.
fn count(done: impl Iterator<Item = bool>) {
    let mut counts = [0, 0];
    done.for_each(|done| counts[usize::from(done)] += 1);
    println!("refused {}, done {}", counts[0], counts[1]);
    assert!(counts[0] > 0 && counts[1] > 0);
}

#[test]
fn every_small_proposal() {
    // up to five sizes, the digits of a number to the base 5
    let sizes = |count, number| (0..count).map(|i| number / 5_usize.pow(i) % 5).collect::<Vec<_>>();
    let proposals = (0..=5).flat_map(|count| (0..5_usize.pow(count)).map(move |number| sizes(count, number)));
    let asked: Vec<_> = (0..=4).flat_map(|cap| (0..=21).map(move |length| (length, cap))).collect();
    count(proposals.flat_map(|sizes| asked.iter().map(move |&(length, cap)| check(length, cap, &sizes))));
}

#[test]
fn proposals_at_the_edges() {
    let mut answers = Vec::new();
    for cap in CAPS {
        answers.extend([0, 1, usize::MAX].map(|length| check(length, cap, &[])));
        answers.push(check(100_000, cap, &[1; 100_000]));
        // up to 20 sizes that are alike but for one, and a length that is the sum, nearly so, so in its lower half, or so but for wrapping
        let edges = [0, 1, cap.wrapping_sub(1), cap, cap.wrapping_add(1), 1 << (usize::BITS - 1), usize::MAX];
        for (most, one) in edges.iter().flat_map(|most| edges.map(|one| (*most, one))) {
            for (count, at) in (1..=List::MOST).flat_map(|count| [(count, 0), (count, count / 2), (count, count - 1)]) {
                let mut sizes = vec![most; count];
                sizes[at] = one;
                let sum = sizes.iter().fold(0, |sum: usize, &n| sum.wrapping_add(n));
                let lengths = [sum, sum.wrapping_sub(1), sum.wrapping_add(1), sum ^ (1 << (usize::BITS / 2)), 0];
                answers.extend(lengths.map(|length| check(length, cap, &sizes)));
            }
        }
    }
    count(answers.into_iter());
}

#[test]
fn random_proposals() {
    let both = Both::new(4096, 0);
    let mut numbers = Numbers::new(3);
    let lists = (0..200_000).map(|_| list(&mut numbers, &both));
    count(lists.map(|list| check(list.length, list.cap, list.sizes())));
}

/// Plans a list: whether that was done. The second implementation's planner answers the same, and may propose other sizes; the check
/// accepts both.
fn planned(length: usize, cap: usize) -> bool {
    let before = lent::<ENTRIES>();
    let mut sizes = before;
    let told = format!("{length} bytes under a cap of {cap}");
    let entries = match (plan_list(length, cap, &mut sizes), slotpool_reference::plan_list(length, cap)) {
        (Ok(entries), Ok(other)) => {
            assert_eq!(entries, length.div_ceil(cap), "{told}");
            assert!(check_list(length, cap, &sizes[..entries]), "{told}: {sizes:?}");
            assert!(check_list(length, cap, &other), "{told}: {other:?}");
            assert!(sizes[..entries.saturating_sub(1)].iter().all(|&n| n == cap), "{told}: full caps, then the rest");
            Some(entries)
        }
        (Err(Refusal::TooLong), Err(Refusal::TooLong)) => None,
        answers => panic!("{told}: {answers:?}"),
    };
    let written = entries.unwrap_or(0);
    assert_eq!(sizes[written..], before[written..], "{told}: the later places");
    entries.is_some()
}

#[test]
fn plans() {
    let mut numbers = Numbers::new(5);
    let small = (0..=40).flat_map(|cap| (0..=ENTRIES * cap + 2).map(move |length| (length, cap)));
    // whole caps, and a byte less and more
    let edges = CAPS.iter().flat_map(|&cap| {
        let near = move |entries: usize| [usize::MAX, 0, 1].map(|more| cap.wrapping_mul(entries).wrapping_add(more));
        (0..=ENTRIES + 1).flat_map(near).map(move |length| (length, cap))
    });
    let random = (0..100_000).map(|_| {
        let cap = 1 + numbers.below(131_051);
        (numbers.below(20 * cap), cap)
    });
    count(small.chain(edges).chain(random).map(|(length, cap)| planned(length, cap)));
}

/// A store into the last requested byte of a live block.
fn last_requested(numbers: &mut Numbers, both: &Both) -> Option<Call> {
    let (start, n) = block(numbers, both)?;
    Some(Call::Store(start + n - 1, numbers.next() as u8))
}

/// Makes a list call on a pool, and the grants of its sizes one after another on a copy. Gives the answer, and how many grants were done.
fn beside_its_grants(both: &mut Both, list: List) -> Result<(Answer, usize), String> {
    let (mut copy, mut handles, mut refusal) = (both.clone(), Vec::new(), None);
    for &n in list.sizes() {
        match copy.call(Call::Grant(n))? {
            Answer::Refused(why) => {
                refusal = Some(why);
                break;
            }
            Answer::Value(handle) => handles.push(handle),
            other => return Err(format!("grant {n}: {other:?}")),
        }
    }
    let answer = both.call(Call::GrantList(list))?;
    let same = copy.first == both.first && copy.plain == both.plain;
    let right = match answer {
        Answer::Value(entries) => refusal.is_none() && entries == handles.len() && handles == both.lent[0][..entries] && same,
        Answer::Refused(Refusal::NoRoom) => refusal == Some(Refusal::NoRoom),
        _ => matches!(answer, Answer::Refused(Refusal::TooLong | Refusal::BadProposal)),
    };
    right.then_some((answer, handles.len())).ok_or(format!("{list:?}: {answer:?}, but its grants gave {handles:?} and {refusal:?}"))
}

#[test]
fn a_list_is_its_grants() {
    let lengths = [512, 1024, 2048, 4096, 8192, 16_384, 65_536];
    let mut seen = Seen::new();
    // how many lists were granted, by their entries, and how many refused with 8, by the entries that had room
    let (mut granted, mut refused) = ([0; ENTRIES + 1], [0; ENTRIES]);
    for seed in 1..=700 {
        let mut numbers = Numbers::new(seed);
        let mut both = Both::new(lengths[seed as usize % lengths.len()], 0xA5);
        for _ in 0..400 {
            let call = next_call(&mut numbers, &both, last_requested);
            let answer = match call {
                Call::GrantList(list) => beside_its_grants(&mut both, list),
                _ => both.call(call).map(|answer| (answer, 0)),
            };
            let (answer, grants) = answer.unwrap_or_else(|why| panic!("seed {seed}: {why}"));
            match (call, answer) {
                (Call::GrantList(_), Answer::Value(_)) => granted[grants] += 1,
                (Call::GrantList(_), Answer::Refused(Refusal::NoRoom)) => refused[grants] += 1,
                _ => {}
            }
            *seen.entry(kind(call, &answer, &both)).or_default() += 1;
        }
    }
    println!("{seen:?}\nlists of 0 to 17 entries that were granted: {granted:?}\nlists whose entry 1 to 17 met no room: {refused:?}");
    all_seen(&seen, UNDAMAGED.into_iter().chain(["set up 0", "store"]));
    assert!(granted.iter().chain(&refused).all(|&k| k > 0));
}
