//! The limited numbers of an order.

use crate::order::rules::{
    self, BALLOON_TEXT_LIMIT, BALLOON_TITLE_LIMIT, ID_SIZE, NO_CACHE, OVERLAY_TEXT_LIMIT,
    RECT_SIZE, TIP_LIMIT, TITLE_LIMIT,
};
use crate::order::{CellPlace, DesktopOrder, NotificationChange, NotificationFields, Order};
use crate::order::{Picture, WindowChange, WindowFields};

/// A limited number: its name, what it is, and whether the rules allow it.
pub type Limited = (&'static str, usize, bool);

/// All limited numbers that an order carries.
pub fn limited(order: &Order<'_>) -> Vec<Limited> {
    match order {
        Order::Window(order) => match &order.change {
            WindowChange::New(fields) | WindowChange::Update(fields) => window(fields),
            WindowChange::Delete => Vec::new(),
            WindowChange::Picture { picture: shown, .. } => picture(shown),
        },
        Order::Notification(order) => match &order.change {
            NotificationChange::New(fields) | NotificationChange::Update(fields) => {
                notification(fields)
            }
            NotificationChange::Delete => Vec::new(),
        },
        Order::Desktop(DesktopOrder::Monitored(fields)) => fields
            .stack
            .map(|ids| ids.len() / ID_SIZE)
            .map(|count| ("stack", count, rules::stack(count)))
            .into_iter()
            .collect(),
        Order::Desktop(DesktopOrder::None) => Vec::new(),
    }
}

fn window(fields: &WindowFields<'_>) -> Vec<Limited> {
    let rects = |name, list: Option<&[u8]>| {
        list.map(|list| list.len() / RECT_SIZE)
            .map(|count| (name, count, rules::rects(count)))
    };
    let show = fields.show_state;
    let yes_or_no = |name, number: Option<u8>| {
        number.map(|number| (name, usize::from(number), rules::yes_or_no(number)))
    };
    [
        show.map(|show| ("show", show.into(), rules::show_state(show))),
        fields
            .title
            .map(|title| string("title", title, TITLE_LIMIT)),
        yes_or_no("rp", fields.rp_content),
        rects("rects", fields.window_rects),
        rects("vis_rects", fields.visibility_rects),
        fields
            .overlay_text
            .map(|text| string("overlay_text", text, OVERLAY_TEXT_LIMIT)),
        yes_or_no("taskbar", fields.taskbar),
        yes_or_no("server_z", fields.server_z),
        yes_or_no("app_bar", fields.app_bar),
        fields
            .edge
            .map(|edge| ("edge", edge.into(), rules::edge(edge))),
    ]
    .into_iter()
    .flatten()
    .collect()
}

fn notification(fields: &NotificationFields<'_>) -> Vec<Limited> {
    let mut all = Vec::new();
    all.extend(fields.tip.map(|tip| string("tip", tip, TIP_LIMIT)));
    if let Some(balloon) = fields.balloon {
        all.push(string("text", balloon.text, BALLOON_TEXT_LIMIT));
        all.push(string("balloon_title", balloon.title, BALLOON_TITLE_LIMIT));
    }
    if let Some(shown) = &fields.picture {
        all.extend(picture(shown));
    }
    all
}

fn picture(picture: &Picture<'_>) -> Vec<Limited> {
    match picture {
        Picture::Icon(icon) => {
            let bits = icon.bits_per_pixel;
            let [cache, entry] = place(icon.place, ["cache", "entry"], true);
            vec![
                cache,
                entry,
                ("bpp", bits.into(), rules::bits_per_pixel(bits)),
                ("width", icon.width.into(), rules::side(icon.width)),
                ("height", icon.height.into(), rules::side(icon.height)),
                ("picture", icon.size(), rules::picture_size(icon.size())),
            ]
        }
        Picture::Cached(cell) => place(*cell, ["cached_cache", "cached_entry"], false).to_vec(),
    }
}

fn place(place: CellPlace, names: [&'static str; 2], is_icon: bool) -> [Limited; 2] {
    let CellPlace { cache, entry } = place;
    let no_cache = is_icon && cache == NO_CACHE;
    let cache_allowed = no_cache || rules::cell(CellPlace { cache, entry: 0 });
    let entry_allowed = no_cache || rules::cell(CellPlace { cache: 0, entry });
    [
        (names[0], cache.into(), cache_allowed),
        (names[1], entry.into(), entry_allowed),
    ]
}

fn string(name: &'static str, bytes: &[u8], limit: usize) -> Limited {
    (name, bytes.len(), rules::string(bytes.len(), limit))
}
