//! The lines of arrows, drawn so that those which lead to one box run together.

use super::layers::Route;
use super::svg::{self, Point};

/// A line with a head.
pub fn arrow(class: &str, points: &[Point]) -> String {
    let [rest @ .., before, tip] = points else { return String::new() };
    let shaft: Vec<Point> = rest.iter().chain([before, &svg::towards(*tip, *before, 6)]).copied().collect();
    svg::line(&format!("net {class}"), &shaft) + &svg::head(&format!("head {class}"), *tip, *before)
}

/// Arrows to one box, forward before back: the first as a whole, each other one to where it meets those before it.
pub fn net<'a>(routes: impl Iterator<Item = &'a Route>, class: &str) -> String {
    let mut routes: Vec<&Route> = routes.collect();
    routes.sort_by_key(|route| route.back);
    let mut all = String::new();
    let mut before: Vec<(Point, Point)> = Vec::new();
    for route in routes {
        let class = if route.back { format!("{class} back") } else { class.to_string() };
        all += &match before.is_empty() {
            true => arrow(&class, &route.points),
            false => svg::line(&format!("net {class}"), &until_met(&route.points, &before)),
        };
        before.extend(route.points.windows(2).map(|ends| (ends[0], ends[1])));
    }
    all
}

/// A line to where it first meets one of others, and a little further on its way.
fn until_met(points: &[Point], others: &[(Point, Point)]) -> Vec<Point> {
    let mut kept: Vec<Point> = points.iter().take(1).copied().collect();
    for (index, ends) in points.windows(2).enumerate() {
        let met = others.iter().filter_map(|other| meeting(ends[0], ends[1], *other));
        if let Some(met) = met.min_by_key(|&met| svg::length(ends[0], met)) {
            kept.push(met);
            let next = points.get(index + 2).filter(|_| met == ends[1]);
            kept.extend(next.map(|&next| svg::towards(met, next, 6.min(svg::length(met, next)))));
            return kept;
        }
        kept.push(ends[1]);
    }
    kept
}

/// The point nearest to its beginning in which a level or upright line meets another.
fn meeting(from: Point, to: Point, (a, b): (Point, Point)) -> Option<Point> {
    let low = (from.0.min(to.0).max(a.0.min(b.0)), from.1.min(to.1).max(a.1.min(b.1)));
    let high = (from.0.max(to.0).min(a.0.max(b.0)), from.1.max(to.1).min(a.1.max(b.1)));
    (low.0 <= high.0 && low.1 <= high.1).then(|| (from.0.clamp(low.0, high.0), from.1.clamp(low.1, high.1)))
}
