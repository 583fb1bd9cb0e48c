//! Both sides of the boundary of every question: requests that differ in one place, of which the
//! question lets the first pass and refuses the others. Here questions 1 to 12.

use super::refuse::add_later_faults;
use super::scene::Scene;
use super::{Entry, Request};
use crate::circuit::{self, ADD, GIVE, IN, MAX_GATES, MUL, NO_KIND};
use crate::circuit::{OUT, OVER, PLUS, SQ, SUB, TIMES};
use crate::field::P;
use crate::random::{self, Kinds, Random};

/// The least and the greatest number that is no element.
pub(super) const NO_ELEMENTS: [u32; 2] = [P, u32::MAX];

/// One of the lists of a request.
pub(super) type ListOf = fn(&mut Request) -> &mut Vec<u32>;

pub(super) fn len_of(request: &Request, list: ListOf) -> usize {
    list(&mut request.clone()).len()
}

#[derive(Clone)]
pub(super) struct Boundary {
    pub number: u32,
    pub inside: Request,
    pub outside: Vec<Request>,
}

impl Boundary {
    /// `put` puts what differs into a copy of the request.
    pub fn new<T: Copy>(
        number: u32,
        base: &Request,
        inside: T,
        outside: &[T],
        put: impl Fn(&mut Request, T),
    ) -> Boundary {
        let with = |differing: T| {
            let mut request = base.clone();
            put(&mut request, differing);
            request
        };
        Boundary {
            number,
            inside: with(inside),
            outside: outside.iter().map(|&differing| with(differing)).collect(),
        }
    }

    /// The boundary of a list's last number.
    pub fn last_element(number: u32, base: &Request, list: ListOf) -> Boundary {
        let last = len_of(base, list) - 1;
        Boundary::new(number, base, P - 1, &[P], |request, element| {
            list(request)[last] = element;
        })
    }

    /// The same boundary with further faults, of which later questions would refuse. They are the same
    /// in all its requests.
    pub fn crowded(mut self, random: &mut Random) -> Boundary {
        let before = random.clone();
        for request in std::iter::once(&mut self.inside).chain(&mut self.outside) {
            random.clone_from(&before);
            add_later_faults(random, request, self.number);
        }
        self
    }

    pub fn requests(self) -> impl Iterator<Item = Request> {
        std::iter::once(self.inside).chain(self.outside)
    }
}

/// The boundaries of one entry, in scenes for a given number of parties.
pub(super) struct Boundaries<'a> {
    pub random: &'a mut Random,
    pub entry: Entry,
    /// The kinds of the scenes' gates.
    pub kinds: Kinds,
    scene_of: &'a dyn Fn(&mut Random, u32) -> Scene,
    made: Vec<Boundary>,
}

/// Every boundary of the entry.
pub(super) fn boundaries(
    random: &mut Random,
    entry: Entry,
    kinds: Kinds,
    scene_of: &dyn Fn(&mut Random, u32) -> Scene,
) -> Vec<Boundary> {
    let mut all = Boundaries::new(random, entry, kinds, scene_of);
    all.parties();
    all.length_of_circuit();
    all.gates();
    all.lists();
    all.steps();
    all.made()
}

impl<'a> Boundaries<'a> {
    pub fn new(
        random: &'a mut Random,
        entry: Entry,
        kinds: Kinds,
        scene_of: &'a dyn Fn(&mut Random, u32) -> Scene,
    ) -> Boundaries<'a> {
        Boundaries {
            random,
            entry,
            kinds,
            scene_of,
            made: Vec::new(),
        }
    }

    pub fn made(self) -> Vec<Boundary> {
        self.made
    }

    pub fn add<T: Copy>(
        &mut self,
        number: u32,
        base: &Request,
        inside: T,
        outside: &[T],
        put: impl Fn(&mut Request, T),
    ) {
        let boundary = Boundary::new(number, base, inside, outside, put);
        self.made.push(boundary);
    }

    /// A question for the exact length of a list: one less, one more, none.
    pub fn exact_length(&mut self, number: u32, base: &Request, list: ListOf) {
        let len = len_of(base, list);
        let mut outside = vec![len + 1];
        outside.extend(len.checked_sub(1));
        if len > 1 {
            outside.push(0);
        }
        self.add(number, base, len, &outside, |request, len| {
            list(request).resize(len, 1);
        });
    }

    /// A question for a length that is enough: one less, none.
    pub fn least_length(&mut self, number: u32, base: &Request, len: usize, list: ListOf) {
        let outside = if len > 1 { vec![len - 1, 0] } else { vec![0] };
        self.add(number, base, len, &outside, |request, len| {
            list(request).resize(len, 1);
        });
    }

    /// A question whether the numbers of a list are elements, at some indices of it, and at all of
    /// these, of which the first decides.
    pub fn elements(&mut self, number: u32, base: &Request, indices: &[usize], list: ListOf) {
        for &index in indices {
            self.add(number, base, P - 1, &NO_ELEMENTS, |request, element| {
                list(request)[index] = element;
            });
        }
        if indices.len() > 1 {
            self.add(number, base, P - 1, &[P], |request, element| {
                indices
                    .iter()
                    .for_each(|&index| list(request)[index] = element);
            });
        }
    }

    pub fn scene(&mut self) -> Scene {
        // More often few parties: the requests are as telling and shorter.
        let most = match self.entry {
            Entry::Joint => 3,
            _ => self.random.between(2, 5),
        };
        let parties = self.random.between(2, most) as u32;
        (self.scene_of)(self.random, parties)
    }

    pub fn scene_where(&mut self, wanted: impl Fn(&Scene) -> bool) -> Scene {
        loop {
            let scene = self.scene();
            if wanted(&scene) {
                return scene;
            }
        }
    }

    fn base(&mut self, scene: &Scene, party: u32) -> Request {
        scene.any(self.random, self.entry, party)
    }

    fn any_base(&mut self) -> (Scene, Request) {
        let scene = self.scene();
        let party = scene.any_party(self.random);
        let request = self.base(&scene, party);
        (scene, request)
    }

    /// Questions 1 and 2.
    fn parties(&mut self) {
        for (parties, outside) in [(2, [1, 0]), (8, [9, u32::MAX])] {
            let scene = (self.scene_of)(self.random, parties);
            let base = self.base(&scene, 0);
            self.add(1, &base, parties, &outside, |request, parties| {
                *request.lists().parties = parties;
            });
        }
        if self.entry != Entry::Joint {
            let scene = self.scene();
            let last = scene.parties - 1;
            let base = self.base(&scene, last);
            let outside = [scene.parties, u32::MAX];
            self.add(2, &base, last, &outside, |request, new| {
                if let Request::Open { lent }
                | Request::Send { lent, .. }
                | Request::Receive { lent, .. } = request
                {
                    lent.party = new;
                }
            });
        }
    }

    /// Question 3.
    fn length_of_circuit(&mut self) {
        let (_, base) = self.any_base();
        let put = |request: &mut Request, len| request.lists().circuit.resize(len, 0);
        let len = len_of(&base, |request| request.lists().circuit);
        self.add(3, &base, len, &[len - 1, len + 1], put);

        let mut kinds = vec![PLUS; MAX_GATES];
        kinds[0] = IN;
        kinds[MAX_GATES - 1] = OUT;
        for (kinds, outside) in [
            (&[IN, OUT][..], &[4, 0][..]),
            (&kinds, &[4 * (MAX_GATES + 1)]),
        ] {
            let circuit = random::from_kinds(self.random, 2, kinds);
            let mut scene = Scene::new(self.random, 2, circuit, 0);
            scene.zeros = true;
            let base = self.base(&scene, 0);
            self.add(3, &base, 4 * kinds.len(), outside, |request, len| {
                let circuit = request.lists().circuit;
                circuit.truncate(len);
                while circuit.len() < len {
                    circuit.extend([OUT, 0, 0, 0]);
                }
            });
        }
    }

    /// One number of a gate of a circuit.
    fn gate_number(
        &mut self,
        number: u32,
        base: &Request,
        (gate, field): (usize, usize),
        inside: u32,
        outside: &[u32],
    ) {
        self.add(number, base, inside, outside, |request, new| {
            request.lists().circuit[4 * gate + field] = new;
        });
    }

    /// A gate of the kind, and a request for its circuit. The gate stands after an out gate if the
    /// kind allows it, so that it may name one.
    fn gate_of(&mut self, kind: u32) -> (usize, Scene, Request) {
        let (scene, base) = self.any_base();
        let gate = scene.gates_of(&[kind]).pop();
        (gate.expect("the scene has every kind"), scene, base)
    }

    /// Questions 4 to 7.
    fn gates(&mut self) {
        let kinds = [
            (IN, &[0][..]),
            (OUT, &[NO_KIND, u32::MAX]),
            (SQ, &[NO_KIND]),
            (GIVE, &[NO_KIND]),
            (OVER, &[NO_KIND, u32::MAX]),
        ];
        let asked = self.kinds;
        for (kind, outside) in kinds.into_iter().filter(|&(kind, _)| asked.has(kind)) {
            let (gate, _, base) = self.gate_of(kind);
            self.gate_number(4, &base, (gate, 0), kind, outside);
        }

        let with_names: [(u32, &[usize]); 9] = [
            (ADD, &[1, 2]),
            (SUB, &[1, 2]),
            (PLUS, &[1]),
            (TIMES, &[1]),
            (MUL, &[1, 2]),
            (OUT, &[1]),
            (SQ, &[1]),
            (GIVE, &[1]),
            (OVER, &[1]),
        ];
        for (kind, fields) in with_names.into_iter().filter(|&(kind, _)| asked.has(kind)) {
            for &field in fields {
                let (gate, scene, base) = self.gate_of(kind);
                let (wires, outs): (Vec<usize>, Vec<usize>) = (0..gate)
                    .partition(|&earlier| circuit::has_value(&scene.circuit[4 * earlier..]));
                let nearest = wires[wires.len() - 1] as u32;
                let mut outside = vec![gate as u32, gate as u32 + 1, u32::MAX];
                for kind in [OUT, GIVE] {
                    let named = outs.iter().rfind(|&&out| scene.circuit[4 * out] == kind);
                    outside.extend(named.map(|&out| out as u32));
                }
                self.gate_number(5, &base, (gate, field), nearest, &outside);
            }
        }
        let last_owns =
            |scene: &Scene, gate: usize| scene.circuit[4 * gate + 1] + 1 == scene.parties;
        let scene = self.scene_where(|scene| last_owns(scene, scene.gates_of(&[IN])[0]));
        let party = scene.any_party(self.random);
        let base = self.base(&scene, party);
        let outside = [scene.parties, u32::MAX];
        self.gate_number(5, &base, (0, 1), scene.parties - 1, &outside);
        if asked.has(GIVE) {
            let (gate, scene, base) = self.gate_of(GIVE);
            let outside = [scene.parties, u32::MAX];
            self.gate_number(5, &base, (gate, 2), scene.parties - 1, &outside);
        }

        for kind in [PLUS, TIMES] {
            let (gate, _, base) = self.gate_of(kind);
            self.gate_number(6, &base, (gate, 3), P - 1, &NO_ELEMENTS);
        }
        if asked.has(OVER) {
            for (inside, outside) in [(1, &[0][..]), (P - 1, &NO_ELEMENTS)] {
                let (gate, _, base) = self.gate_of(OVER);
                self.gate_number(6, &base, (gate, 3), inside, outside);
            }
        }
        let unused: [(u32, &[usize]); 10] = [
            (IN, &[2, 3]),
            (ADD, &[3]),
            (SUB, &[3]),
            (PLUS, &[2]),
            (TIMES, &[2]),
            (MUL, &[3]),
            (OUT, &[2, 3]),
            (SQ, &[2, 3]),
            (GIVE, &[3]),
            (OVER, &[2]),
        ];
        for (kind, fields) in unused.into_iter().filter(|&(kind, _)| asked.has(kind)) {
            for &field in fields {
                let (gate, _, base) = self.gate_of(kind);
                self.gate_number(6, &base, (gate, field), 0, &[1, u32::MAX]);
            }
        }

        self.gates_in_order();

        // A give gate at the end that names party 0: its second stays unused in other kinds.
        let scene = self.scene_where(|scene| scene.circuit[scene.circuit.len() - 2] == 0);
        let party = scene.any_party(self.random);
        let base = self.base(&scene, party);
        let last = scene.shape.gates - 1;
        let kind = scene.circuit[4 * last];
        self.gate_number(7, &base, (last, 0), kind, &[PLUS, TIMES]);
    }

    /// "All three are asked of line 0 before line 1": faults in the first and in the last gate; within
    /// the last gate, 4 before 5 before 6.
    fn gates_in_order(&mut self) {
        for early in 4..=6 {
            for late in 4..=6 {
                let (scene, mut base) = self.any_base();
                let gate = scene.shape.gates - 1;
                // For each number the field, and what is wrong in it, of an in and of an out or give gate.
                let first = [(0, 0), (1, scene.parties), (2, 1)];
                let unused = if scene.circuit[4 * gate] == GIVE {
                    3
                } else {
                    2
                };
                let last = [(0, NO_KIND), (1, gate as u32), (unused, 1)]
                    .map(|(field, no)| (4 * gate + field, no));
                let (at, no) = first[early - 4];
                let (late_at, late_no) = last[late - 4];
                let put = |request: &mut Request, (at, number): (usize, u32)| {
                    request.lists().circuit[at] = number;
                };
                if early == late {
                    // The inside has no fault, the outside two.
                    self.add(early as u32, &base, false, &[true], |request, wrong| {
                        if wrong {
                            put(request, (at, no));
                            put(request, (late_at, late_no));
                        }
                    });
                    continue;
                }
                put(&mut base, (late_at, late_no));
                let right = scene.circuit[at];
                self.add(early as u32, &base, (at, right), &[(at, no)], put);
                if early < late {
                    let (at, no) = last[early - 4];
                    let right = scene.circuit[at];
                    self.add(early as u32, &base, (at, right), &[(at, no)], put);
                }
            }
        }
    }

    /// Questions 8 to 12.
    fn lists(&mut self) {
        let prep: ListOf = |request| request.lists().prep;
        let inputs: ListOf = |request| request.lists().inputs;
        let scratch: ListOf = |request| request.lists().scratch;

        let (_, base) = self.any_base();
        self.exact_length(8, &base, prep);

        // The whole mask of gate 0, number 3, is then one that the party never reads.
        let scene = self.scene();
        let unowned = (scene.circuit[1] + 1) % scene.parties;
        let base = self.base(&scene, unowned);
        let last = len_of(&base, prep) - 1;
        let middle = self.random.between(4, last - 1);
        self.elements(9, &base, &[0, 3, middle, last], prep);

        let scene = self.scene_where(|scene| scene.shape.owned[scene.circuit[1] as usize] > 1);
        let owner = scene.circuit[1];
        let base = self.base(&scene, owner);
        self.exact_length(10, &base, inputs);
        let last = len_of(&base, inputs) - 1;
        self.elements(11, &base, &[0, last], inputs);
        if self.entry != Entry::Joint {
            let mut scene = self.scene();
            scene.disown();
            let base = self.base(&scene, 0);
            self.exact_length(10, &base, inputs);
        }

        let (scene, base) = self.any_base();
        let bands = match self.entry {
            Entry::Joint => scene.parties as usize,
            _ => 1,
        };
        self.least_length(12, &base, bands * scene.shape.scratch_len(), scratch);
    }
}
