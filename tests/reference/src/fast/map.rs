//! The map's calls. The walk's nodes are held in order from index 0; the
//! nodes of a remove's rebalancing follow. A remove first plans its rotations
//! from heights alone, fetching as it goes, and carries them out in the step.

use super::node::{Node, LEFT, RIGHT};
use super::rounds::{Place, Rounds};
use crate::paper::*;

/// Nodes on a walk at most, and a new one.
const WALK: usize = GREATEST_HEIGHT[7] + 1;

/// Keys lie strictly between the two.
#[derive(Clone, Copy)]
struct Bounds {
    low: i64,
    high: i64,
}

impl Bounds {
    const ALL: Bounds = Bounds {
        low: -1,
        high: 1 << 32,
    };

    /// The bounds on one side of a key that lies within.
    fn beside(self, key: u32, side: usize) -> Bounds {
        match side {
            LEFT => Bounds {
                high: i64::from(key),
                ..self
            },
            _ => Bounds {
                low: i64::from(key),
                ..self
            },
        }
    }

    fn hold(self, key: u32) -> bool {
        self.low < i64::from(key) && i64::from(key) < self.high
    }
}

/// The children that a rotation moves, by their index among those held.
#[derive(Clone, Copy)]
struct Rotation {
    child: usize,
    /// For a double rotation.
    inner: Option<usize>,
}

/// The walk so far: node i is held at index i.
struct Walk {
    length: usize,
    turns: [usize; WALK],
    bounds: [Bounds; WALK],
}

pub fn call(rounds: &mut Rounds, ticket: Ticket) -> Result<Answer, u8> {
    let mut walk = Walk {
        length: 0,
        turns: [0; WALK],
        bounds: [Bounds::ALL; WALK],
    };
    let found = walk.descend(rounds, ticket.key)?;
    let answer = match (ticket.kind, found) {
        (REMOVE, true) => walk.remove(rounds)?,
        (kind, _) => {
            rounds.finish_fetching(walk.rounds(rounds))?;
            if kind == PUT {
                walk.put(rounds, ticket, found)
            } else {
                walk.get(rounds, found)
            }
        }
    };
    let fetches = walk.rounds(rounds);
    rounds.put_rounds(fetches + 1, fetches)?;
    Ok(answer)
}

impl Walk {
    fn rounds(&self, rounds: &Rounds) -> usize {
        fetch_rounds(MAP, rounds.state.size)
    }

    /// Walks down by key; true if the last node walked has the key.
    fn descend(&mut self, rounds: &mut Rounds, key: u32) -> Result<bool, u8> {
        let mut place = Place::Root;
        let mut bounds = Bounds::ALL;
        while rounds.link(place).height != 0 {
            let passed = self.advance(rounds, place, bounds)?;
            if passed == key {
                return Ok(true);
            }
            (place, bounds) = self.turn(passed, usize::from(key > passed));
        }
        Ok(false)
    }

    /// Fetches the walk's next node and returns its key.
    fn advance(&mut self, rounds: &mut Rounds, place: Place, bounds: Bounds) -> Result<u32, u8> {
        let at = fetch(rounds, place, bounds)?;
        self.bounds[at] = bounds;
        self.length = at + 1;
        Ok(rounds.held[at].key())
    }

    /// Turns to a side of the last node, which has this key.
    fn turn(&mut self, key: u32, side: usize) -> (Place, Bounds) {
        let last = self.length - 1;
        self.turns[last] = side;
        (
            Place::Below(last, side),
            self.bounds[last].beside(key, side),
        )
    }

    fn get(&self, rounds: &Rounds, found: bool) -> Answer {
        match found {
            true => Answer::Found(rounds.held[self.length - 1].value()),
            false => Answer::Absent,
        }
    }

    fn put(&self, rounds: &mut Rounds, ticket: Ticket, found: bool) -> Answer {
        if found {
            let node = &mut rounds.held[self.length - 1];
            let old = node.value();
            node.set_value(ticket.value);
            return Answer::Replaced(old);
        }
        if rounds.state.entries == capacity(rounds.state.size) {
            return Answer::Refused(FULL);
        }
        let tag = rounds.draw(self.rounds(rounds));
        let new = Node::new(ticket.key, tag, ticket.value);
        rounds.hold(new);
        rounds.state.entries += 1;
        self.grow(rounds, new.link_here());
        Answer::New
    }

    /// Links the new node in and rebalances. A put rotates at most once, and
    /// over the walk's own nodes.
    fn grow(&self, rounds: &mut Rounds, mut below: Link) {
        for at in (0..self.length).rev() {
            let side = self.turns[at];
            rounds.held[at].set_link(side, below);
            let mut top = at;
            if rounds.held[at].balance().abs() == 2 {
                let single = self.turns[at + 1] == side;
                let inner = if single { None } else { Some(at + 2) };
                top = rotate(
                    rounds,
                    at,
                    side,
                    Rotation {
                        child: at + 1,
                        inner,
                    },
                );
            }
            below = rounds.held[top].link_here();
        }
        rounds.state.root = below;
    }

    /// Removes the last node walked.
    fn remove(&mut self, rounds: &mut Rounds) -> Result<Answer, u8> {
        let target = self.length - 1;
        let removed = rounds.held[target];
        let has_two = removed.side_height(LEFT) != 0 && removed.side_height(RIGHT) != 0;
        if has_two {
            self.descend_to_next(rounds, removed.key())?;
        }
        let rotations = self.plan_rotations(rounds)?;
        rounds.finish_fetching(self.rounds(rounds))?;
        self.shrink(rounds, target, &rotations);
        rounds.drop_held(target);
        rounds.state.entries -= 1;
        Ok(Answer::Removed(removed.value()))
    }

    /// From the last node, which has this key, on to the next larger key.
    fn descend_to_next(&mut self, rounds: &mut Rounds, key: u32) -> Result<(), u8> {
        let (mut place, mut bounds) = self.turn(key, RIGHT);
        while rounds.link(place).height != 0 {
            let passed = self.advance(rounds, place, bounds)?;
            (place, bounds) = self.turn(passed, LEFT);
        }
        Ok(())
    }

    /// The link that takes the place of the last node walked.
    fn link_for_last(&self, rounds: &Rounds) -> Link {
        let last = &rounds.held[self.length - 1];
        match last.side_height(LEFT) {
            0 => last.link(RIGHT),
            _ => last.link(LEFT),
        }
    }

    /// Goes upward from the change as long as heights change.
    fn plan_rotations(&self, rounds: &mut Rounds) -> Result<[Option<Rotation>; WALK], u8> {
        let mut rotations = [None; WALK];
        let mut height = self.link_for_last(rounds).height;
        for at in (0..self.length - 1).rev() {
            let node = rounds.held[at];
            let other = node.side_height(1 - self.turns[at]);
            let new_height = if other == height + 2 {
                let (rotation, new_height) = self.plan_rotation(rounds, at)?;
                rotations[at] = Some(rotation);
                new_height
            } else {
                1 + other.max(height)
            };
            if u16::from(new_height) == node.height() {
                break;
            }
            height = new_height;
        }
        Ok(rotations)
    }

    /// Fetches what the rotation at a walk's node needs: the taller child and
    /// perhaps its inner child. Also the height afterwards.
    fn plan_rotation(&self, rounds: &mut Rounds, at: usize) -> Result<(Rotation, u8), u8> {
        let short = self.turns[at];
        let tall = 1 - short;
        let bounds = self.bounds[at].beside(rounds.held[at].key(), tall);
        let child = fetch(rounds, Place::Below(at, tall), bounds)?;
        let node = rounds.held[child];
        let (outer_height, inner_height) = (node.side_height(tall), node.side_height(short));
        if outer_height >= inner_height {
            return Ok((Rotation { child, inner: None }, inner_height + 2));
        }
        let bounds = bounds.beside(node.key(), short);
        let inner = fetch(rounds, Place::Below(child, short), bounds)?;
        Ok((
            Rotation {
                child,
                inner: Some(inner),
            },
            inner_height + 1,
        ))
    }

    /// Takes the last node walked out of its place; if it is not the target,
    /// it takes the target's place.
    fn shrink(&self, rounds: &mut Rounds, target: usize, rotations: &[Option<Rotation>; WALK]) {
        let last = self.length - 1;
        let mut below = self.link_for_last(rounds);
        for at in (0..last).rev() {
            let mut top = at;
            if at == target {
                let left = rounds.held[target].link(LEFT);
                rounds.held[last].set_link(LEFT, left);
                top = last;
            }
            rounds.held[top].set_link(self.turns[at], below);
            if let Some(rotation) = rotations[at] {
                top = rotate(rounds, top, 1 - self.turns[at], rotation);
            }
            below = rounds.held[top].link_here();
        }
        rounds.state.root = below;
    }
}

fn fetch(rounds: &mut Rounds, place: Place, bounds: Bounds) -> Result<usize, u8> {
    rounds.fetch(place, |node, link| {
        node.balance().abs() <= 1
            && node.height() == u16::from(link.height)
            && bounds.hold(node.key())
    })
}

/// Rotates about a node whose side `tall` is too tall; the index that is
/// then on top.
fn rotate(rounds: &mut Rounds, top: usize, tall: usize, rotation: Rotation) -> usize {
    let held = &mut rounds.held;
    let short = 1 - tall;
    let child = rotation.child;
    let Some(inner) = rotation.inner else {
        let middle = held[child].link(short);
        held[top].set_link(tall, middle);
        let lowered = held[top].link_here();
        held[child].set_link(short, lowered);
        return child;
    };
    let (to_child, to_top) = (held[inner].link(tall), held[inner].link(short));
    held[child].set_link(short, to_child);
    held[top].set_link(tall, to_top);
    let (tall_link, short_link) = (held[child].link_here(), held[top].link_here());
    held[inner].set_link(tall, tall_link);
    held[inner].set_link(short, short_link);
    inner
}
