//! Drawings of strands: rest light, drape dark, from the front and from the side.

use crate::notes::notes;
use crate::scene::Scene;
use crate::shapes::Point;
use crate::svg::{Sheet, Side, Spot, DRAPE, FAINT, INK, REST};
use crate::view::{round_length, short, Bounds, View};

/// Room around what is drawn in a panel, for marks that are wider than their place.
const ROOM: f64 = 16.0;
/// The strip above a panel's drawing with its name, and the one beneath with axes and scale bar.
const HEAD: f64 = 22.0;
const FOOT: f64 = 26.0;

/// Where a strand is drawn: its corner and the size of each of the two panels.
struct Cell {
    corner: Spot,
    panel: Spot,
    gap: f64,
}

pub fn single(scene: &Scene, unit: &str) -> String {
    let mut sheet = Sheet::default();
    let title = format!("Seat {}: {}", scene.seat, summary(scene));
    sheet.bold([24.0, 38.0], 20.0, &title);
    let cell = Cell { corner: [24.0, 56.0], panel: [420.0, 460.0], gap: 16.0 };
    strand(&mut sheet, &cell, scene, unit);
    for (k, note) in notes(scene, unit).iter().enumerate() {
        sheet.text([24.0, 544.0 + 22.0 * k as f64], 14.0, INK, Side::Left, note);
    }
    legend(&mut sheet, [24.0, 604.0]);
    sheet.finished([904.0, 628.0], &title)
}

/// All seats, three in a row.
pub fn grid(scenes: &[Option<Scene>], unit: &str) -> String {
    let mut sheet = Sheet::default();
    sheet.bold([24.0, 38.0], 20.0, "The six seats of the bench");
    for (seat, scene) in scenes.iter().enumerate() {
        let corner = [24.0 + 424.0 * (seat % 3) as f64, 58.0 + 350.0 * (seat / 3) as f64];
        seat_cell(&mut sheet, corner, seat, scene.as_ref(), unit);
    }
    legend(&mut sheet, [24.0, 778.0]);
    sheet.finished([1304.0, 800.0], "The six seats of the bench")
}

fn seat_cell(sheet: &mut Sheet, [x, y]: Spot, seat: usize, scene: Option<&Scene>, unit: &str) {
    sheet.panel([x, y], [408.0, 336.0], "#ffffff", "#c5ced6");
    sheet.bold([x + 12.0, y + 24.0], 16.0, &format!("Seat {seat}"));
    let Some(scene) = scene else {
        sheet.text([x + 204.0, y + 180.0], 16.0, FAINT, Side::Middle, "empty");
        return;
    };
    sheet.text([x + 396.0, y + 24.0], 13.0, FAINT, Side::Right, &summary(scene));
    let cell = Cell { corner: [x + 10.0, y + 36.0], panel: [190.0, 290.0], gap: 8.0 };
    strand(sheet, &cell, scene, unit);
}

fn counted(count: usize, what: &str) -> String {
    format!("{count} {what}{}", if count == 1 { "" } else { "s" })
}

fn summary(scene: &Scene) -> String {
    format!("{} vertices, after {}", scene.rest.len(), counted(scene.steps, "step"))
}

fn strand(sheet: &mut Sheet, cell: &Cell, scene: &Scene, unit: &str) {
    let goal = scene.pick.map(|p| p.goal);
    let seen = scene.rest.iter().chain(&scene.drape).copied().chain(goal);
    let Some(bounds) = Bounds::of(seen) else { return };
    let [w, h] = cell.panel;
    let scale = bounds.scale(w - 2.0 * ROOM, h - HEAD - FOOT - 2.0 * ROOM);
    let [left, top] = cell.corner;
    for (k, (name, axis)) in [("front", 0), ("side", 2)].into_iter().enumerate() {
        let corner = [left + k as f64 * (w + cell.gap), top];
        let middle = [corner[0] + w / 2.0, top + HEAD + (h - HEAD - FOOT) / 2.0];
        sheet.panel(corner, cell.panel, "#f7f9fb", "#e1e7ec");
        sheet.text([corner[0] + 8.0, top + 17.0], 13.0, FAINT, Side::Left, name);
        let axes = if axis == 0 { "x \u{2192}  y \u{2191}" } else { "z \u{2192}  y \u{2191}" };
        sheet.text([corner[0] + w - 8.0, top + 17.0], 13.0, FAINT, Side::Right, axes);
        marks(sheet, scene, &View { axis, bounds, scale, middle });
    }
    bar(sheet, [left + 10.0, top + h - 10.0], scale, w * 0.45, unit);
}

fn bar(sheet: &mut Sheet, [x, y]: Spot, scale: f64, most: f64, unit: &str) {
    let length = round_length(most / scale);
    let end = x + length * scale;
    sheet.line([x, y], [end, y], 2.0, INK);
    sheet.line([x, y - 4.0], [x, y + 4.0], 2.0, INK);
    sheet.line([end, y - 4.0], [end, y + 4.0], 2.0, INK);
    sheet.text([end + 8.0, y + 4.5], 13.0, INK, Side::Left, &format!("{} {unit}", short(length)));
}

fn marks(sheet: &mut Sheet, scene: &Scene, view: &View) {
    let spots = |points: &[Point]| points.iter().map(|p| view.at(*p)).collect::<Vec<Spot>>();
    let drape = spots(&scene.drape);
    sheet.curve(&spots(&scene.rest), 3.5, REST);
    if let Some(pick) = scene.pick {
        sheet.dashes(drape[pick.vertex], view.at(pick.goal));
    }
    sheet.curve(&drape, 2.0, DRAPE);
    drape.iter().for_each(|spot| sheet.dot(*spot, 2.4, DRAPE));
    sheet.dot(drape[0], 5.0, DRAPE);
    for (spot, pins) in drape.iter().zip(&scene.pins) {
        if pins[3] {
            sheet.diamond(*spot);
        }
        if pins[..3].contains(&true) {
            sheet.square(*spot);
        }
    }
    if let Some(pick) = scene.pick {
        sheet.cross(view.at(pick.goal));
        sheet.ring(drape[pick.vertex]);
    }
}

fn legend(sheet: &mut Sheet, [x, y]: Spot) {
    let names = [
        ("rest", 78.0),
        ("drape", 86.0),
        ("vertex 0", 98.0),
        ("position pinned", 146.0),
        ("twist pinned", 124.0),
        ("picked vertex", 130.0),
        ("its goal", 90.0),
    ];
    let mut left = x;
    for (k, (name, width)) in names.into_iter().enumerate() {
        let spot = [left + 12.0, y - 4.5];
        let (start, end) = ([left, y - 4.5], [left + 24.0, y - 4.5]);
        match k {
            0 => sheet.curve(&[start, end], 3.5, REST),
            1 => {
                sheet.curve(&[start, end], 2.0, DRAPE);
                sheet.dot(spot, 2.4, DRAPE);
            }
            2 => sheet.dot(spot, 5.0, DRAPE),
            3 => sheet.square(spot),
            4 => sheet.diamond(spot),
            5 => sheet.ring(spot),
            _ => sheet.cross(spot),
        }
        sheet.text([left + 30.0, y], 13.0, INK, Side::Left, name);
        left += width;
    }
}
