//! Why orders are refused: beside the second program on generated pairs of a state and an
//! order, and beside deliveries.

use rail::{
    Explanation, Refusal, Session, View, BODIES_SIZE, INDEX_SIZE, JOURNAL_SIZE, PLACE_SIZE,
};
use second::generate::explain::pairs;
use second::memory::{self, Memory};
use second::script::parts::Parts;
use second::script::session::{call, Call};
use second::script::take_item;
use second::{generate, why};

/// A view of a state file, cut as short as the file is.
fn view(file: &[u8]) -> View<'_> {
    let mut rest = file;
    let mut part = |size: usize| {
        let (part, tail) = rest.split_at(size.min(rest.len()));
        rest = tail;
        part
    };
    let (index, bodies, journal) = (part(INDEX_SIZE), part(BODIES_SIZE), part(JOURNAL_SIZE));
    let store = [15, 15, 15, 15, 4].map(|places| part(PLACE_SIZE * places));
    View::new(index, bodies, store, journal)
}

/// That an order is refused so, at that offset.
fn assert_refused(told: Explanation, refusal: Refusal, offset: usize) {
    let order = told.refused().expect("refused");
    assert_eq!((order.refusal, order.offset), (refusal, offset));
}

fn told(explanation: Explanation) -> String {
    format!("{explanation}\n")
}

/// States that the second program wrote, whole and broken.
#[test]
fn of_generated_pairs() {
    for seed in 0..60 {
        for (number, pair) in pairs(seed, 40).iter().enumerate() {
            let (state, order) = (pair.state.bytes(), pair.order.bytes());
            let expected = why::on_file(state, order).expect("a book");
            let explanation = view(state).explain(order);
            assert_eq!(
                told(explanation),
                expected.lines(),
                "seed {seed}, pair {number}: {pair:?}"
            );
        }
    }
}

/// Each delivery of generated scripts: the explanation before it has its number, and a
/// refused one is told with its offset.
#[test]
fn beside_deliveries() {
    let mut refused = 0;
    for seed in 0..20 {
        let script = generate::session::script(seed, 300, &Parts::default());
        let mut session = Session::new();
        let mut rest: &[u8] = &script;
        while let Some((item, tail)) = take_item(rest) {
            rest = tail;
            let Some(Call::Deliver(order)) = call(item, &Parts::default()) else {
                continue;
            };
            let explanation = session.explain(order);
            let before = session.clone();
            match session.deliver_explained(order) {
                Ok(_) => assert_eq!(explanation, Explanation::Granted),
                Err(order) => {
                    assert_eq!(explanation, Explanation::Refused(order));
                    refused += 1;
                }
            }
            let number = before.clone().deliver(order).err().map(Refusal::number);
            assert_eq!(explanation.number(), number.unwrap_or(0));
        }
    }
    assert!(refused > 500);
}

#[test]
fn the_state_file_of_a_session() {
    let order = [0x2E, 15, 0, 4, 0, 0, 0x11, 0x58, 0, 1, 0, 2, 0, 0x41, 0];
    for places in [12, 20, 64] {
        let mut session = Session::with_places(places);
        session.deliver(&order).unwrap();
        let file = session.state_file();
        let size = INDEX_SIZE + BODIES_SIZE + JOURNAL_SIZE + places * PLACE_SIZE;
        assert_eq!(file.len(), size);
        let Memory::Book(book) = memory::read(&file) else {
            panic!("no book");
        };
        assert_eq!(
            (book.places(), book.orders()),
            (places, &[order.to_vec()][..])
        );
        let again = view(&file).explain(&order);
        assert_refused(again, Refusal::WrongId, 7);
        assert_eq!(session.deliver_explained(&order).err(), again.refused());
    }
}

#[test]
fn unfit_memory() {
    let told = View::new(&[], &[], [&[]; 5], &[]).explain(&[]);
    assert_refused(told, Refusal::UnfitMemory, 0);
}
