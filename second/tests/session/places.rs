//! How generated scripts lend places, and numbered places beside the sets of holders.

use second::generate::session::script;
use second::order::{judge, DesktopOrder, NotificationChange, Order};
use second::order::{Picture, WindowChange, WindowIcon};
use second::script::parts::{first_places, places, Parts};
use second::script::session::{call, Call, Session};
use second::script::take_item;
use second::table::{brings_icon, Cell, Holder, Table, MOST_PLACES};

/// Where the places lie stays the same while a picture is in play.
#[test]
fn generated_scripts_lend_places_where_they_are() {
    let parts = Parts::default();
    let (mut lent_anew, mut shortened) = (0, 0);
    for seed in 0..200 {
        let script = script(seed, 300, &parts);
        let mut session = Session::default();
        let mut at = first_places(&session.lengths(), MOST_PLACES);
        for call in calls(&script, &parts) {
            let lent = session.lent();
            let had = session.book().has_pictures();
            lent_anew += u32::from(matches!(call, Call::Lend(_)));
            shortened += u32::from(matches!(call, Call::ShortenStore(..)));
            match session.make(&call) {
                None | Some(1) => continue,
                Some(_) if matches!(call, Call::ReadRecord(_)) => continue,
                Some(_) => {}
            }
            let fixed = session.book().places();
            assert!(places(&lent) >= fixed);
            let now = first_places(&lent, fixed);
            assert!(call == Call::Empty || !had || now == at, "seed {seed}");
            at = now;
        }
    }
    assert!(
        lent_anew > 200 && shortened > 100,
        "{lent_anew} {shortened}"
    );
}

/// The calls of a script up to a bad item.
fn calls<'a>(script: &'a [u8], parts: &'a Parts) -> impl Iterator<Item = Call<'a>> {
    let mut rest = script;
    std::iter::from_fn(move || {
        let (item, tail) = take_item(rest)?;
        rest = tail;
        call(item, parts)
    })
}

/// Places with numbers and pointers to them, as a program may have them.
#[derive(Clone, Default)]
struct Numbered {
    pointers: Vec<(Holder, usize)>,
    pictures: Vec<Option<Cell>>,
}

impl Numbered {
    fn at(&self, holder: Holder) -> Option<usize> {
        let found = self.pointers.iter().find(|(of, _)| *of == holder);
        found.map(|(_, place)| *place)
    }

    fn is_used(&self, place: usize) -> bool {
        self.pointers.iter().any(|(_, of)| *of == place)
    }

    fn free(&self) -> Option<usize> {
        (0..self.pictures.len())
            .rev()
            .find(|&place| !self.is_used(place))
    }

    fn let_go(&mut self, goes: impl Fn(&Holder) -> bool) {
        self.pointers.retain(|(holder, _)| !goes(holder));
    }

    /// What an order makes of it; 17 where no place is free, and it stays.
    fn deliver(&mut self, order: &Order<'_>, table: &Table) -> u8 {
        let before = self.clone();
        if let Some(setting) = brings_icon(order) {
            self.let_go(|holder| setting.contains(holder));
            let Some(place) = self.free() else {
                *self = before;
                return 17;
            };
            self.pictures[place] = table.shown(setting[0]).cloned();
            let pointers = setting.into_iter().map(|holder| (holder, place));
            self.pointers.extend(pointers);
            return 0;
        }
        match order {
            Order::Window(order) => match order.change {
                WindowChange::Delete => {
                    let id = order.window_id;
                    let own = [Holder::Small(id), Holder::Big(id), Holder::Overlay(id)];
                    self.let_go(|holder| own.contains(holder));
                }
                WindowChange::Picture {
                    which,
                    picture: Picture::Cached(cell),
                } => {
                    let of = match which {
                        WindowIcon::Small => Holder::Small,
                        WindowIcon::Big => Holder::Big,
                        WindowIcon::Overlay => Holder::Overlay,
                    };
                    self.point(of(order.window_id), cell.into());
                }
                WindowChange::New(fields) | WindowChange::Update(fields) if fields.overlay_none => {
                    self.let_go(|holder| *holder == Holder::Overlay(order.window_id));
                }
                _ => {}
            },
            Order::Notification(order) => {
                let own = Holder::Notification(order.window_id, order.notify_icon_id);
                match order.change {
                    NotificationChange::Delete => self.let_go(|holder| *holder == own),
                    NotificationChange::New(fields) | NotificationChange::Update(fields) => {
                        if let Some(Picture::Cached(cell)) = fields.picture {
                            self.point(own, cell.into());
                        }
                    }
                }
            }
            Order::Desktop(DesktopOrder::None) => {
                self.let_go(|holder| !matches!(holder, Holder::Cell(..)));
            }
            Order::Desktop(_) => {}
        }
        0
    }

    fn point(&mut self, holder: Holder, cell: Holder) {
        let place = self.at(cell).expect("a filled cell");
        self.let_go(|other| *other == holder);
        self.pointers.push((holder, place));
    }

    /// Whether the holders of a table show and share as the pointers here do.
    fn is_told_by(&self, table: &Table) -> bool {
        let store = table.store();
        let shows = |&(holder, place): &(Holder, usize)| {
            store.shown(holder) == self.pictures[place].as_ref()
                && self
                    .pointers
                    .iter()
                    .all(|&(other, of)| store.shared(holder, other) == Some(place == of))
        };
        store.holders().count() == self.pointers.len() && self.pointers.iter().all(shows)
    }
}

/// On generated scripts, numbered places give the same numbers and pictures; and an order
/// for a record changes no other record's picture.
#[test]
fn numbered_places_are_the_same() {
    let parts = Parts::default();
    let (mut refused, mut taken) = (0, 0);
    for seed in 0..120 {
        let script = script(seed, 300, &parts);
        let mut session = Session::default();
        for call in calls(&script, &parts) {
            let before = session.book().clone();
            let number = session.make(&call);
            let Call::Deliver(order) = call else { continue };
            let (Some(number @ (0 | 17)), Ok(judged)) = (number, judge(order)) else {
                continue;
            };
            let table = session.book().table();
            let mut numbered = numbered_of(before.table());
            // The picture comes from the table after the order, so 17 has none to give.
            assert_eq!(numbered.deliver(&judged, table), number, "seed {seed}");
            assert!(numbered.is_told_by(table), "seed {seed}: {judged:?}");
            others_keep(before.table(), table, &judged);
            match number {
                0 => taken += u32::from(brings_icon(&judged).is_some()),
                _ => refused += 1,
            }
        }
    }
    assert!(refused > 200 && taken > 1_000, "{refused} {taken}");
}

/// Numbered places for what the holders of a table show.
fn numbered_of(table: &Table) -> Numbered {
    let mut numbered = Numbered {
        pictures: vec![None; table.places()],
        ..Numbered::default()
    };
    for holder in table.store().holders() {
        let first = table.store().sharing(holder).next().expect("itself");
        let place = match numbered.at(first) {
            Some(place) => place,
            None => numbered
                .free()
                .expect("a table has places for what it shows"),
        };
        numbered.pointers.push((holder, place));
        numbered.pictures[place] = table.shown(holder).cloned();
    }
    numbered
}

fn others_keep(before: &Table, after: &Table, order: &Order<'_>) {
    let is_own = |holder: Holder| match (order, holder) {
        (Order::Desktop(DesktopOrder::None), holder) => !matches!(holder, Holder::Cell(..)),
        (Order::Window(order), Holder::Small(id) | Holder::Big(id) | Holder::Overlay(id)) => {
            id == order.window_id
        }
        (Order::Notification(order), Holder::Notification(window, icon)) => {
            (window, icon) == (order.window_id, order.notify_icon_id)
        }
        (order, Holder::Cell(..)) => brings_icon(order).is_some_and(|set| set.contains(&holder)),
        _ => false,
    };
    for holder in before.store().holders().chain(after.store().holders()) {
        assert!(is_own(holder) || before.shown(holder) == after.shown(holder));
    }
}
