//! The pictures in use. A place of the store is here no number but the set of those that
//! point at it: nothing else of it ever shows.

use std::collections::BTreeSet;

use super::Cell;
use crate::ids::{NotifyIconId, WindowId};
use crate::order::{CellPlace, WindowIcon};

/// The fewest places of a store.
pub const FEWEST_PLACES: usize = 12;
/// The most places of a store; room past them is left alone.
pub const MOST_PLACES: usize = 64;
/// The bytes of a place.
pub const PLACE_SIZE: usize = 4_224;

/// What points at a place.
#[derive(Clone, Copy, Debug, PartialEq, Eq, PartialOrd, Ord)]
pub enum Holder {
    /// A cell, by its cache id and its entry, whether it exists or not.
    Cell(u32, u32),
    /// A window's small icon.
    Small(WindowId),
    /// A window's big icon.
    Big(WindowId),
    /// A window's overlay icon.
    Overlay(WindowId),
    /// A notification icon.
    Notification(WindowId, NotifyIconId),
}

impl Holder {
    /// The icons of a window.
    pub fn of_window(id: WindowId) -> [Self; 3] {
        [Self::Small(id), Self::Big(id), Self::Overlay(id)]
    }

    /// An icon of a window.
    pub fn icon(id: WindowId, which: WindowIcon) -> Self {
        match which {
            WindowIcon::Small => Self::Small(id),
            WindowIcon::Big => Self::Big(id),
            WindowIcon::Overlay => Self::Overlay(id),
        }
    }

    /// The other icons of the window whose icon it is.
    pub fn others(self) -> impl Iterator<Item = Self> {
        let all = self.window().map(Self::of_window);
        all.into_iter()
            .flatten()
            .filter(move |&other| other != self)
    }

    /// Whose icon it is, if it is a window's.
    pub fn window(self) -> Option<WindowId> {
        match self {
            Self::Small(id) | Self::Big(id) | Self::Overlay(id) => Some(id),
            Self::Cell(..) | Self::Notification(..) => None,
        }
    }
}

impl From<CellPlace> for Holder {
    fn from(place: CellPlace) -> Self {
        Self::Cell(place.cache.into(), place.entry.into())
    }
}

/// A picture and those that hold it.
#[derive(Clone, Debug, PartialEq, Eq)]
struct Kept {
    holders: BTreeSet<Holder>,
    picture: Cell,
}

/// The pictures in use, ascending by their holders, so that equal stores are those whose
/// holders show the same and share alike. No holder is in two sets, and no set is empty.
#[derive(Clone, Debug, Default, PartialEq, Eq)]
pub struct Store(Vec<Kept>);

impl Store {
    /// The picture that a holder shows.
    pub fn shown(&self, holder: Holder) -> Option<&Cell> {
        self.kept(holder).map(|kept| &kept.picture)
    }

    /// Whether two holders share a place; none where one of them points at nothing.
    pub fn shared(&self, one: Holder, other: Holder) -> Option<bool> {
        self.kept(other)?;
        Some(self.kept(one)?.holders.contains(&other))
    }

    /// All that hold what this holder does, itself among them.
    pub fn sharing(&self, holder: Holder) -> impl Iterator<Item = Holder> + '_ {
        let holders = self.kept(holder).map(|kept| kept.holders.iter().copied());
        holders.into_iter().flatten()
    }

    /// All that hold a picture.
    pub fn holders(&self) -> impl Iterator<Item = Holder> + '_ {
        self.0.iter().flat_map(|kept| kept.holders.iter().copied())
    }

    /// The pictures, each with all that hold it.
    pub fn pictures(&self) -> impl Iterator<Item = (&BTreeSet<Holder>, &Cell)> {
        self.0.iter().map(|kept| (&kept.holders, &kept.picture))
    }

    /// How many places are pointed at.
    pub fn used(&self) -> usize {
        self.0.len()
    }

    /// How many places are pointed at once these have let go.
    pub fn used_without(&self, leaving: &[Holder]) -> usize {
        let stays = |kept: &&Kept| kept.holders.iter().any(|holder| !leaving.contains(holder));
        self.0.iter().filter(stays).count()
    }

    fn kept(&self, holder: Holder) -> Option<&Kept> {
        self.0.iter().find(|kept| kept.holders.contains(&holder))
    }

    /// Only the holders that `stay` go on pointing.
    pub(super) fn retain(&mut self, stay: impl Fn(&Holder) -> bool) {
        for kept in &mut self.0 {
            kept.holders.retain(&stay);
        }
        self.0.retain(|kept| !kept.holders.is_empty());
        self.sort();
    }

    /// These let go of what they held and hold a picture that is at a place of its own.
    pub(super) fn take(&mut self, holders: &[Holder], picture: Cell) {
        self.retain(|holder| !holders.contains(holder));
        let holders = holders.iter().copied().collect();
        self.0.push(Kept { holders, picture });
        self.sort();
    }

    /// A holder lets go of what it held and holds what the cell does.
    ///
    /// # Panics
    /// If the cell is empty.
    pub(super) fn share(&mut self, holder: Holder, cell: Holder) {
        self.retain(|&other| other != holder);
        let mut kept = self.0.iter_mut();
        let kept = kept.find(|kept| kept.holders.contains(&cell));
        kept.expect("a filled cell").holders.insert(holder);
        self.sort();
    }

    fn sort(&mut self) {
        self.0.sort_by(|one, other| one.holders.cmp(&other.holders));
    }
}
