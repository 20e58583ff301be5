// SPDX-License-Identifier: Apache-2.0
//! Drawn child lists (02, Paper 6), and the model's answers, terms and buffers after each child, as theorems for the prover.

use model::children::{Added, Children};

use crate::rng::Rng;

/// Children for a list: a buffer with something in every number, and the children in their order.
pub struct Stream {
    pub buffer: Vec<u64>,
    pub children: Vec<(u16, u64)>,
}

/// Few classes, so that they repeat; counts small, of 32 bits, and at the brim of 64.
pub fn draw(rng: &mut Rng, numbers: usize, children: usize) -> Stream {
    let classes = rng.range(1, numbers.max(2));
    let huge = rng.once_in(3);
    let count = |rng: &mut Rng| match rng.below(if huge { 8 } else { 5 }) {
        0 => 0xffff_ffff,
        1..=4 => rng.range(1, 9) as u64,
        5 => u64::MAX,
        6 => u64::MAX - rng.range(0, 9) as u64,
        _ => 1 << 63,
    };
    let class = |rng: &mut Rng| match rng.below(40) {
        0 => u16::MAX,
        _ => rng.below(classes) as u16,
    };
    Stream {
        buffer: (0..numbers).map(|_| rng.range(90, 99) as u64).collect(),
        children: (0..children).map(|_| (class(rng), count(rng))).collect(),
    }
}

/// What the list says of a child, how many terms it holds then, and its whole buffer.
pub struct State {
    pub number: u32,
    pub terms: usize,
    pub buffer: Vec<u64>,
}

/// The model's states after each child.
pub fn states(stream: &Stream) -> Vec<State> {
    let mut held = Children::new(stream.buffer.len() / 2);
    let state = |(class, count): &(u16, u64)| {
        let number = match held.add(u64::from(*class), *count) {
            Added::Held => 0,
            Added::Full => 1,
            Added::Overflow => 2,
        };
        let list = held.list();
        let terms = list.len();
        let mut buffer: Vec<u64> = list.into_iter().flat_map(|(c, k)| [c, k]).collect();
        buffer.extend_from_slice(&stream.buffer[buffer.len()..]);
        State {
            number,
            terms,
            buffer,
        }
    };
    stream.children.iter().map(state).collect()
}

fn list(items: impl IntoIterator<Item = String>) -> String {
    let mut text: String = items.into_iter().map(|item| item + " ∷ ").collect();
    text.push_str("[]");
    text
}

fn numbers(items: impl IntoIterator<Item = u64>) -> String {
    format!("({})", list(items.into_iter().map(|x| x.to_string())))
}

/// Module `Drawn` of crate `child_list`: a theorem for each drawn stream.
pub fn module(seed: u64, count: usize) -> String {
    let mut rng = Rng::new(seed);
    let mut text = "-- Drawn children, and the model's states after each: made by `harness children` of the oracle.\n\
                    use Rattle.std.specs.Prelude.{◌≡◌, refl, [], ◌∷◌}\n\
                    use Rattle.child_list.specs.Adding.{added_of, laid}\n\
                    use Rattle.child_list.specs.Trials.{stream}\n"
        .to_string();
    for at in 1..=count {
        let numbers_many = rng.below(12);
        let children = rng.range(1, 10);
        let stream = draw(&mut rng, numbers_many, children);
        let read = list(stream.children.iter().map(|(c, k)| format!("({c}, {k})")));
        let states = list(states(&stream).into_iter().map(|s| {
            numbers(
                [u64::from(s.number), s.terms as u64]
                    .into_iter()
                    .chain(s.buffer),
            )
        }));
        let buffer = numbers(stream.buffer);
        text += &format!(
            "\ndrawn-{at} : stream 0 {buffer} ({read}) ≡ ({states})\nunfolding added_of laid\ndrawn-{at} = refl\n"
        );
    }
    text
}
