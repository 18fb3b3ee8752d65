//! kw_region and kw_region_at, which parse by themselves, on every image that is compared.

use crate::answers::{api_answer, api_entry, api_place, entry};
use crate::ffi_api as api;
use crate::inputs::{hex, Entry};
use crate::tally::Group;
use crate::view::{indices, kinds};
use keleusma_wire::WireView;

/// Every kind and index that `view` asks for, also of an image that is refused, and indices that 16 bits
/// don't hold.
pub fn same(group: &mut Group, bytes: &[u8]) {
    let input = || hex(&bytes[..bytes.len().min(2000)]);
    let parsed = WireView::parse(bytes);
    let count = parsed.as_ref().map_or(0, |view| view.region_count());
    let view = parsed.as_ref().ok();
    let entries: Vec<Entry> = (0..count).filter_map(|i| view?.region_at(i)).map(entry).collect();
    for kind in kinds(&entries) {
        let rusts = api_answer(&parsed, |view| api_place(view, view.find_region(kind)));
        group.same(api::region(bytes, kind), rusts, || format!("kw_region {kind} {}", input()));
    }
    let wide = [0x1_0000, 0x1_0001, u32::MAX];
    for index in indices(count).into_iter().map(u32::from).chain(wide) {
        let rusts = api_answer(&parsed, |view| {
            let found = u16::try_from(index).ok().and_then(|index| view.region_at(index));
            api_entry(view, found)
        });
        group.same(api::region_at(bytes, index), rusts, || {
            format!("kw_region_at {index} {}", input())
        });
    }
}
