//! The curves, above the plot.

use std::fmt::{self, Formatter};

use crate::sheet::SHAPES;
use crate::stretch::Stretch;
use crate::Curve;

/// What the shapes stand for.
const KEY: &str = r#"<path class="crest" d="M1500 11700Q2500 9700 3500 11700Z"/><text x="4000" y="11650">crest</text>
<path class="sag" d="M8300 10700Q9300 12700 10300 10700Z"/><text x="10800" y="11650">sag</text>
<path class="crest" d="M14100 11700L14650 10700L15200 11700Z"/><text x="15700" y="11650">break</text>
"#;

/// The numbers of curves are a sixty-fourth of the plot apart.
const NUMBERS: i64 = 64;

impl Stretch<'_> {
    /// The curves of the stretch behind a key of their shapes, each a crest or a sag by the grades before and behind it. One that
    /// changes no grade is not drawn. Over the changed curve of a preview lies its shape as it is.
    pub fn curves(&self, out: &mut Formatter) -> fmt::Result {
        out.write_str(KEY)?;
        let mut grade_in = self.profile.first_grade;
        for (place, curve) in self.profile.curves.iter().enumerate() {
            if curve.grade_out != grade_in && self.reaches_in(curve) {
                let crest = curve.grade_out < grade_in;
                let class = if crest { "crest" } else { "sag" };
                self.pvi(out, curve)?;
                match self.preview.and_then(|preview| preview.old_curve(place)) {
                    None => self.shape(out, curve, crest, class)?,
                    Some(old) => {
                        self.shape(out, curve, crest, &format!("{class} changed"))?;
                        self.shape(out, old, crest, "old")?;
                    }
                }
            }
            grade_in = curve.grade_out;
        }
        Ok(())
    }

    /// Whether a curve is in the stretch by its PVI, or by a part of its length.
    fn reaches_in(&self, curve: &Curve) -> bool {
        let (pvi, half) = (i64::from(curve.pvi), i64::from(curve.length / 2));
        self.sheet.own().contains(&pvi) || (self.sheet.first < pvi + half && pvi - half < self.sheet.last)
    }

    /// A dotted line from a curve's shape down to the road at its PVI, where that is in the stretch.
    fn pvi(&self, out: &mut Formatter, curve: &Curve) -> fmt::Result {
        let is_own = self.sheet.own().contains(&curve.pvi.into());
        let height = self.profile.heights.get(curve.pvi as usize).filter(|_| is_own);
        let Some(&height) = height else { return Ok(()) };
        writeln!(out, r#"<path class="pvi" d="M{} 13200V{}"/>"#, self.sheet.x(curve.pvi), self.sheet.y(height))
    }

    /// A curve from its begin to its end, a filled hump over a crest and an open bowl over a sag, cut where it goes on in another
    /// stretch; or a break, a triangle that stands on its foot at a crest and on its point in a sag.
    fn shape(&self, out: &mut Formatter, curve: &Curve, crest: bool, class: &str) -> fmt::Result {
        let (pvi, half) = (i64::from(curve.pvi), i64::from(curve.length / 2));
        let middle = self.sheet.x(pvi);
        if curve.length == 0 {
            let triangle = if crest { "M-550 0L0-1000L550 0Z" } else { "M-550-1000L0 0L550-1000Z" };
            return writeln!(out, r#"<path class="{class}" d="{triangle}" transform="translate({middle} {SHAPES})"/>"#);
        }
        let (ends, bend) = if crest { (SHAPES, SHAPES - 2_000) } else { (SHAPES - 1_000, SHAPES + 1_000) };
        let whole = [pvi - half, pvi + half];
        let seen = self.sheet.cut(whole);
        if seen != whole {
            return writeln!(out, r#"<path class="{class}" d="{}"/>"#, self.part(whole, seen, [ends, bend]));
        }
        let [from, to] = whole.map(|station| self.sheet.x(station));
        writeln!(out, r#"<path class="{class}" d="M{from} {ends}Q{middle} {bend} {to} {ends}Z"/>"#)
    }

    /// The part that is seen of a curve's shape, which is a parabola with its ends at one height and the point that bends it at another.
    /// The cut is upright.
    fn part(&self, [from, to]: [i64; 2], seen: [i64; 2], [ends, bend]: [i64; 2]) -> String {
        let all = i128::from(to - from);
        let [before, behind] = seen.map(|station| i128::from(station - from));
        let y = |part: i128| ends + (i128::from(bend - ends) * part / (all * all)) as i64;
        let [left, right] = seen.map(|station| self.sheet.x(station));
        let [left_y, right_y] = [before, behind].map(|metres| y(2 * metres * (all - metres)));
        let (bend_x, bend_y) = ((left + right) / 2, y(before * (all - behind) + behind * (all - before)));
        format!("M{left} {ends}L{left} {left_y}Q{bend_x} {bend_y} {right} {right_y}L{right} {ends}Z")
    }

    /// The curves' places, counted from 0, above them, where there is room. The changed curve of a preview has its own, and those
    /// beside it give way.
    pub fn curve_numbers(&self, out: &mut Formatter) -> fmt::Result {
        let station = |curve: &Curve| i64::from(curve.pvi);
        let changed = self.preview.and_then(|preview| Some((preview.place, self.profile.curves.get(preview.place)?)));
        let has_room = |&(pvi, place): &(i64, usize)| match changed {
            Some((own, curve)) if own != place => (pvi - station(curve)).abs() >= self.sheet.room(NUMBERS),
            _ => true,
        };
        let numbers = self.profile.curves.iter().map(station).zip(0..);
        let numbers = numbers.filter(|(pvi, _)| self.sheet.own().contains(pvi)).filter(has_room);
        for (pvi, number) in self.sheet.apart(numbers, self.sheet.room(NUMBERS)) {
            writeln!(out, r#"<text class="middle" x="{}" y="11500">{number}</text>"#, self.sheet.x(pvi))?;
        }
        Ok(())
    }
}
