//! The proved program, called through the functions that its static library exports.

use crate::wiring::{Kind, Lead, Wiring};

/// What stands at a place, as the library takes it.
#[repr(C)]
#[derive(Clone, Copy)]
struct Place {
    stands: bool,
    contacts: u8,
    tail: u16,
    head: u16,
    picoseconds: u32,
}

/// What the library answers: no refusal and the numbers of paths and words, or a refusal's number.
#[repr(C)]
struct Answer {
    refusal: u8,
    paths: usize,
    words: usize,
}

/// Number of nodes, places with their count, a row for words with its length, one for the witness with its.
type Probe = unsafe extern "C" fn(usize, *const Place, usize, *mut u16, usize, *mut u16, usize) -> Answer;

macro_rules! exported {
    ($($name:ident)*) => {
        extern "C" {
            $(fn $name(
                nodes: usize,
                places: *const Place,
                place_count: usize,
                words: *mut u16,
                word_room: usize,
                witness: *mut u16,
                witness_room: usize,
            ) -> Answer;)*
        }
    };
}

exported!(probe_late probe_contact probe_early);

/// The number of a refusal; 255 stands for want of memory.
#[derive(Clone, Copy, Debug, PartialEq, Eq)]
pub struct Refused(pub u8);

/// The numbers of paths and of words of a list.
#[derive(Clone, Copy, Debug, PartialEq, Eq)]
pub struct Counts {
    pub paths: usize,
    pub words: usize,
}

/// A wiring as the proved program takes it, and the two rows that it is lent.
pub struct Lent {
    probe: Probe,
    nodes: usize,
    places: Vec<Place>,
    pub words: Vec<u16>,
    pub witness: Vec<u16>,
}

impl Lent {
    /// Rows of these lengths for a wiring, filled with zeros.
    pub fn new(wiring: &Wiring, words: usize, witness: usize) -> Self {
        let probe: Probe = match wiring.kind {
            Kind::Late => probe_late,
            Kind::Contact => probe_contact,
            Kind::Early => probe_early,
        };
        let places = wiring.places.iter().map(|place| place.map_or(VACANT, standing)).collect();
        Lent { probe, nodes: wiring.nodes as usize, places, words: vec![0; words], witness: vec![0; witness] }
    }

    /// Has the proved program write the list and a witness to the beginnings of the rows.
    pub fn choose(&mut self) -> Result<Counts, Refused> {
        let (words, witness) = (&mut self.words, &mut self.witness);
        // The library has proved functions that read the places and write into the two rows only. Pointers and
        // lengths are those of vectors, and the rows are lent for this call alone.
        let answer = unsafe {
            (self.probe)(
                self.nodes,
                self.places.as_ptr(),
                self.places.len(),
                words.as_mut_ptr(),
                words.len(),
                witness.as_mut_ptr(),
                witness.len(),
            )
        };
        match answer.refusal {
            0 => Ok(Counts { paths: answer.paths, words: answer.words }),
            number => Err(Refused(number)),
        }
    }
}

const VACANT: Place = Place { stands: false, contacts: 0, tail: 0, head: 0, picoseconds: 0 };

/// A lead as the library takes it. No wiring has a node 65535, so that larger numbers are refused as that one is.
fn standing(lead: Lead) -> Place {
    Place {
        stands: true,
        contacts: u8::try_from(lead.delay.contacts).expect("contacts that fit into a byte"),
        tail: u16::try_from(lead.tail).unwrap_or(u16::MAX),
        head: u16::try_from(lead.head).unwrap_or(u16::MAX),
        picoseconds: lead.delay.picoseconds,
    }
}

#[cfg(test)]
mod tests {
    use super::*;
    use crate::wiring::read;

    fn lent(text: &str, words: usize, witness: usize) -> Lent {
        Lent::new(&read(&text.replace(' ', "\n")).unwrap(), words, witness)
    }

    #[test]
    fn the_first_example_gets_its_list_and_a_witness() {
        let mut lent = lent("late 5 0-2:3 1-2:1 2-3:2 2-4:2", 10, 4);
        assert_eq!(lent.choose(), Ok(Counts { paths: 3, words: 9 }));
        assert_eq!(lent.words, [2, 0, 2, 2, 0, 3, 2, 1, 2, 0]);
        assert_eq!(lent.witness, [1, 2, 3, 0]);
    }

    #[test]
    fn a_refusal_is_told_by_its_number() {
        let number = |text, words, witness| lent(text, words, witness).choose().unwrap_err().0;
        assert_eq!(number("late 4097 1-0:1", 10, 10), 3);
        assert_eq!(number("late 2 0-1:1 0-2:1000001", 10, 10), 5);
        assert_eq!(number("late 2 0-70000:1", 10, 10), 5);
        assert_eq!(number("late 2 0-1:1000001 1-1:1", 10, 10), 6);
        assert_eq!(number("late 2 0-1:1 0-1:1", 3, 2), 10);
        assert_eq!(number("late 2 0-1:1 0-1:1", 4, 1), 10);
    }

    #[test]
    fn a_refusal_leaves_the_rows_as_they_were() {
        let mut lent = lent("late 2 0-1:1 0-1:1", 3, 2);
        lent.words.fill(7);
        lent.witness.fill(8);
        assert_eq!(lent.choose(), Err(Refused(10)));
        assert_eq!((lent.words, lent.witness), (vec![7; 3], vec![8; 2]));
    }

    #[test]
    fn a_wiring_of_nothing_has_an_empty_list() {
        assert_eq!(lent("late 0", 0, 0).choose(), Ok(Counts { paths: 0, words: 0 }));
        assert_eq!(lent("early 1 -", 0, 0).choose(), Ok(Counts { paths: 0, words: 0 }));
    }
}
