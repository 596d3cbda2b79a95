//! Goes through all states that a model can come to.
use std::fmt::Debug;
use std::hash::{Hash, Hasher};

/// A machine of threads, as a relation between its states.
pub trait Model {
    type State: Copy + Eq + Hash + Debug;

    fn first(&self) -> Self::State;

    /// Adds each step that may come next.
    fn add_steps(&self, state: &Self::State, steps: &mut Vec<Step<Self::State>>);

    /// Returns that one of the states which differ by names alone, such as those of threads, that stands for
    /// all of them.
    fn named_anew(&self, state: Self::State) -> Self::State;

    /// Says what is wrong with a state, if something is.
    fn fault(&self, state: &Self::State) -> Option<String>;

    /// Whether no call is under way.
    fn is_at_rest(&self, state: &Self::State) -> bool;
}

/// A step of one thread.
pub struct Step<S> {
    /// Its number, or one beyond those of all threads.
    pub thread: usize,
    pub name: &'static str,
    /// Whether it comes some time, if nothing else does. So it is with what a thread does within a call; but
    /// not with a new call, the end of a time, or a wake-up for no reason.
    pub comes: bool,
    pub next: S,
}

/// What came of a run.
pub struct Explored {
    pub states: usize,
    /// Whether no state was left out.
    pub is_whole: bool,
    pub fault: Option<Fault>,
}

/// What is wrong, and the steps that lead there.
pub struct Fault {
    pub what: String,
    pub way: Vec<String>,
}

/// The number of no state.
const NONE: u32 = u32::MAX;

/// The states that were found, and how they are connected.
struct Graph<S> {
    states: Vec<S>,
    /// The state from which each was found first.
    from: Vec<u32>,
    /// Numbers of states by their hashes, with room. A power of two.
    table: Vec<u32>,
    /// For each state where the steps end that come from it, as far as they come by themselves.
    next: Vec<u32>,
    ends: Vec<usize>,
}

impl<S: Copy + Eq + Hash> Graph<S> {
    fn new() -> Graph<S> {
        Graph {
            states: Vec::new(),
            from: Vec::new(),
            table: vec![NONE; 1 << 12],
            next: Vec::new(),
            ends: Vec::new(),
        }
    }

    /// Returns the number of a state, which is a new one if it was not there.
    fn number_of(&mut self, state: S, from: u32) -> u32 {
        if self.states.len() * 2 >= self.table.len() {
            self.grow();
        }
        let place = self.place_of(&state);
        if self.table[place] == NONE {
            self.table[place] = self.states.len() as u32;
            self.states.push(state);
            self.from.push(from);
        }
        self.table[place]
    }

    /// Returns the place of a state in the table, or where it is to be put.
    fn place_of(&self, state: &S) -> usize {
        let mut place = hash_of(state) as usize % self.table.len();
        while self.table[place] != NONE && self.states[self.table[place] as usize] != *state {
            place = (place + 1) % self.table.len();
        }
        place
    }

    fn grow(&mut self) {
        self.table = vec![NONE; self.table.len() * 2];
        for number in 0..self.states.len() {
            let place = self.place_of(&self.states[number]);
            self.table[place] = number as u32;
        }
    }

    fn next_of(&self, number: usize) -> &[u32] {
        let begin = number.checked_sub(1).map_or(0, |it| self.ends[it]);
        &self.next[begin..self.ends[number]]
    }

    /// Returns the first state from which no way of steps that come by themselves leads to one of these.
    fn first_stuck(&self, is_wanted: impl Fn(&S) -> bool) -> Option<usize> {
        let mut ends: Vec<bool> = self.states.iter().map(is_wanted).collect();
        let mut changed = true;
        while changed {
            changed = false;
            // Most steps lead to higher numbers.
            for number in (0..ends.len()).rev() {
                if !ends[number] && self.next_of(number).iter().any(|it| ends[*it as usize]) {
                    (ends[number], changed) = (true, true);
                }
            }
        }
        ends.iter().position(|it| !it)
    }

    /// Returns the states that lead to one, with it.
    fn way_to(&self, number: usize) -> Vec<S> {
        let mut way = vec![self.states[number]];
        let mut at = self.from[number];
        while at != NONE {
            way.push(self.states[at as usize]);
            at = self.from[at as usize];
        }
        way.reverse();
        way
    }
}

/// Goes through all states of a model, the nearest first, but for no more than so many.
pub fn explore<M: Model>(model: &M, most: usize) -> Explored {
    let mut graph = Graph::new();
    graph.number_of(model.named_anew(model.first()), NONE);
    let (mut steps, mut at, mut wrong) = (Vec::new(), 0, None);
    while at < graph.states.len() && graph.states.len() <= most {
        let state = graph.states[at];
        wrong = model.fault(&state).map(|what| (what, at));
        if wrong.is_some() {
            break;
        }
        model.add_steps(&state, &mut steps);
        for step in steps.drain(..) {
            let number = graph.number_of(model.named_anew(step.next), at as u32);
            if step.comes {
                graph.next.push(number);
            }
        }
        graph.ends.push(graph.next.len());
        at += 1;
    }
    let is_whole = at == graph.states.len();
    if is_whole {
        let stuck = graph.first_stuck(|state| model.is_at_rest(state));
        wrong = stuck.map(|at| ("a call is stuck: it does not end".to_string(), at));
    }
    let fault = wrong.map(|(what, at)| Fault {
        what,
        way: told(model, &graph.way_to(at)),
    });
    Explored {
        states: graph.states.len(),
        is_whole,
        fault,
    }
}

/// Tells the steps along a way. Each thread keeps its number.
fn told<M: Model>(model: &M, way: &[M::State]) -> Vec<String> {
    let mut state = model.first();
    let mut lines = vec![format!("{state:?}")];
    for to in &way[1..] {
        let mut steps = Vec::new();
        model.add_steps(&state, &mut steps);
        let step = steps
            .into_iter()
            .find(|it| model.named_anew(it.next) == *to)
            .expect("a step led there");
        state = step.next;
        lines.push(format!("{} {}: {state:?}", step.thread, step.name));
    }
    lines
}

fn hash_of(state: &impl Hash) -> u64 {
    let mut mixer = Mixer(0);
    state.hash(&mut mixer);
    mixer.finish()
}

/// A hash that takes little time, of what nobody has chosen to collide.
struct Mixer(u64);

impl Hasher for Mixer {
    fn finish(&self) -> u64 {
        self.0 ^ (self.0 >> 32)
    }

    fn write(&mut self, bytes: &[u8]) {
        for byte in bytes {
            self.write_u64(u64::from(*byte));
        }
    }

    fn write_u8(&mut self, number: u8) {
        self.write_u64(u64::from(number));
    }

    fn write_u64(&mut self, number: u64) {
        self.0 = (self.0.rotate_left(23) ^ number).wrapping_mul(0x9e37_79b9_7f4a_7c15);
    }

    fn write_usize(&mut self, number: usize) {
        self.write_u64(number as u64);
    }

    fn write_isize(&mut self, number: isize) {
        self.write_u64(number as u64);
    }
}
