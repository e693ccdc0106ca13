//! The examples table of the subject, for both choosers.

use crate::wiring::{read, Wiring};
use crate::{generate, ordinary, second};

/// The text of each wiring, with spaces for line ends, and its words.
const ROWS: [(&str, &str); 9] = [
    ("late 0", ""),
    ("late 2 0-1:0", "1 0"),
    ("late 5 0-2:3 1-2:1 2-3:2 2-4:2", "2 0 2 2 0 3 2 1 2"),
    ("early 5 0-2:3 1-2:1 2-3:2 2-4:2", "2 0 2 2 1 2 2 1 3"),
    ("contact 5 0-2:3/1 1-2:3/0 2-3:2/0 2-4:2/0", "2 0 2 2 0 3 2 1 2"),
    ("late 6 0-2:1 1-2:1 2-3:1 2-4:1 2-5:1", "2 0 2 2 1 3 2 1 4"),
    ("late 2 0-1:5 0-1:3", "1 0 1 1"),
    ("late 3 0-1:1 1-2:1 0-2:3", "2 0 1 1 2"),
    ("late 3 0-1:1 1-2:1 0-2:1", "2 0 1 1 2"),
];

fn wiring(row: &str) -> Wiring {
    read(&row.replace(' ', "\n")).expect("the text of a wiring")
}

fn joined<T: ToString>(words: &[T]) -> String {
    words.iter().map(T::to_string).collect::<Vec<_>>().join(" ")
}

#[test]
fn the_ordinary_chooser_draws_the_nine_lists() {
    for (row, words) in ROWS {
        assert_eq!(joined(&ordinary::choose(&wiring(row)).unwrap().words), words, "{row}");
    }
}

#[test]
fn the_second_chooser_draws_the_nine_lists() {
    for (row, words) in ROWS {
        let found = second::work_out(&wiring(row));
        assert_eq!(joined(&found.words()), words, "{row}");
        assert_eq!(found.covers, found.list.len(), "{row}");
    }
}

/// Leads 3 and 4 start out with the load 2 each, and lead 0 is lowered by two ways, one against each of them.
#[test]
fn a_lead_is_lowered_by_more_than_one_way() {
    let wiring = wiring("late 12 0-3:1 1-4:2 2-5:2 3-4:1 3-5:1 4-6:1 4-7:1 4-8:1 5-9:1 5-10:1 5-11:1");
    let (first, second) = (ordinary::choose(&wiring).unwrap(), second::work_out(&wiring));
    assert_eq!(joined(&first.loads), "2 2 2 1 1 1 1 1 1 1 1");
    assert_eq!(joined(&second.loads), joined(&first.loads));
    assert_eq!(joined(&second.words()), joined(&first.words));
}

#[test]
fn vacant_places_and_bare_nodes_change_no_list() {
    let bare = wiring("late 9 - 0-2:3 - 4-6:2 2-4:2 -");
    assert_eq!(joined(&ordinary::choose(&bare).unwrap().words), "3 1 4 3");
    assert_eq!(joined(&second::work_out(&bare).words()), "3 1 4 3");
}

#[test]
fn the_first_example_has_the_witness_1_2_3() {
    let wiring = wiring(ROWS[2].0);
    let paths = second::work_out(&wiring).paths;
    assert!(second::is_witness(&wiring, &paths, &[1, 2, 3], 3));
    assert!(!second::is_witness(&wiring, &paths, &[0, 2, 3], 3));
    assert!(!second::is_witness(&wiring, &paths, &[1, 2], 3));
    assert!(!second::is_witness(&wiring, &paths, &[2, 1, 3], 3));
    assert!(!second::is_witness(&wiring, &paths, &[1, 2, 4], 3));
}

#[test]
fn both_find_the_lengths_and_types_of_the_triangle() {
    let wiring = wiring(ROWS[7].0);
    let (first, second) = (ordinary::survey(&wiring).unwrap(), second::work_out(&wiring));
    let picoseconds =
        |delays: &[crate::wiring::Delay]| joined(&delays.iter().map(|d| d.picoseconds).collect::<Vec<_>>());
    assert_eq!((picoseconds(&first.to), picoseconds(&first.from)), ("0 1 3".into(), "3 1 0".into()));
    assert_eq!((picoseconds(&second.to), picoseconds(&second.from)), ("0 1 3".into(), "3 1 0".into()));
    assert_eq!((second.drains, second.fed), (vec![false, true, true], vec![true, false, true]));
    assert_eq!(first.types.iter().map(|t| t.drains).collect::<Vec<_>>(), [false, true, true]);
    assert_eq!(first.types.iter().map(|t| t.fed).collect::<Vec<_>>(), [true, false, true]);
}

/// Whether each lead is on a path of the list that is as long as To(tail) + delay + From(head).
fn covers_every_lead(wiring: &Wiring, survey: &ordinary::Survey, words: &[u32]) -> bool {
    let lead = |k: u32| wiring.places[k as usize].expect("a lead of the list");
    let mut longest = vec![None; wiring.places.len()];
    let mut rest = words;
    while let Some((&count, after)) = rest.split_first() {
        let (path, after) = after.split_at(count as usize);
        assert!(path.windows(2).all(|two| lead(two[0]).head == lead(two[1]).tail));
        let delay: u32 = path.iter().map(|&k| lead(k).delay.picoseconds).sum();
        path.iter().for_each(|&k| longest[k as usize] = longest[k as usize].max(Some(delay)));
        rest = after;
    }
    wiring.leads().all(|(k, lead)| {
        let (to, from) = (survey.to[lead.tail as usize], survey.from[lead.head as usize]);
        longest[k] == Some(to.picoseconds + lead.delay.picoseconds + from.picoseconds)
    })
}

/// Whether no path is longest through two of these leads. If one were, then the earlier lead would be fed, the
/// later one would drain, and each lead between them would do both.
fn is_apart(wiring: &Wiring, survey: &ordinary::Survey, witness: &[u32]) -> bool {
    witness.iter().all(|&first| {
        let mut reached = vec![false; wiring.nodes as usize];
        let earlier = wiring.places[first as usize].expect("a lead of the witness");
        reached[earlier.head as usize] = survey.types[first as usize].fed;
        let mut by_tail: Vec<usize> = wiring.leads().map(|(k, _)| k).collect();
        by_tail.sort_by_key(|&k| wiring.places[k].map(|lead| lead.tail));
        by_tail.into_iter().all(|k| {
            let (lead, marks) = (wiring.places[k].unwrap(), survey.types[k]);
            let goes_on = reached[lead.tail as usize] && marks.drains;
            reached[lead.head as usize] |= goes_on && marks.fed;
            !(goes_on && witness.contains(&(k as u32)))
        })
    })
}

#[test]
fn lists_of_large_wirings_cover_and_are_witnessed() {
    for (name, size) in generate::NAMES.into_iter().flat_map(|name| [(name, 256), (name, 600)]) {
        let wiring = generate::large(name, size).unwrap();
        let (survey, choice) = (ordinary::survey(&wiring).unwrap(), ordinary::choose(&wiring).unwrap());
        assert!(covers_every_lead(&wiring, &survey, &choice.words), "{name}");
        assert!(is_apart(&wiring, &survey, &choice.witness), "{name}");
        let mut paths = 0;
        let mut next = 0;
        while next < choice.words.len() {
            next += 1 + choice.words[next] as usize;
            paths += 1;
        }
        assert_eq!((paths, choice.witness.len()), (choice.total as usize, choice.total as usize), "{name}");
    }
}
