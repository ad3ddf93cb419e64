//! Boxes in layers, and the arrows between them: numbers only, nothing is drawn here.
//!
//! The layers stand below one another, and above each is a channel for level lines. All arrows to a box are one net, which enters
//! the box at one point of its top. An arrow leaves a box at its right side into the gap beside it, and goes down to the channel
//! below or, where its target is no further down, up to the channel above; from there to the target, or first along a lane: in
//! the left margin up, in the right margin down. So no line crosses a box. In gaps, channels and margins each net has its own
//! lines: those of two nets cross at right angles, or not at all.

use super::svg::Point;
use std::collections::{BTreeMap, BTreeSet, VecDeque};

/// Upright lines stand on a grid of this step.
const STEP: i32 = 12;
/// What goes up stands so far beside the grid, what goes down on it: all three kinds meet in a channel.
const UP: i32 = 4;
/// The same of what enters a box.
const ENTRY: i32 = 8;
/// From one level line of a channel to the next.
const TRACK: i32 = 9;
/// Above the first line of a channel, and below its last one, where the heads of the arrows are.
const ABOVE: i32 = 14;
const BELOW: i32 = 24;

/// A box.
pub struct Node {
    pub width: i32,
    pub height: i32,
    pub exits: Vec<Exit>,
}

/// Where an arrow leaves a box at its right side, and the box that it leads to.
#[derive(Clone, Copy)]
pub struct Exit {
    /// From the box's top.
    pub y: i32,
    pub target: usize,
}

/// Where everything stands.
pub struct Layout {
    pub width: i32,
    pub height: i32,
    /// The upper left corner of each box.
    pub corners: Vec<Point>,
    /// By box and exit.
    pub routes: Vec<Vec<Route>>,
}

/// The way of an arrow.
pub struct Route {
    pub target: usize,
    /// From the box's side to the target's top.
    pub points: Vec<Point>,
    /// Whether it leads to the same or an earlier layer.
    pub back: bool,
}

/// Something from here to there that needs a line for itself.
struct Span {
    net: usize,
    from: i32,
    to: i32,
}

/// The lines that nets have, by their numbers from 0.
#[derive(Default)]
struct Lines {
    of: BTreeMap<usize, i32>,
    count: i32,
}

/// Which layers there are, and the lanes in the margins.
struct Plan<'a> {
    nodes: &'a [Node],
    layers: Vec<Vec<usize>>,
    /// The layer of each box.
    layer: Vec<usize>,
    left: Lines,
    right: Lines,
}

/// The upright lines of an arrow, and the channels between them.
struct Course {
    net: usize,
    gap: i32,
    /// The channel that the gap leads to.
    channel: usize,
    /// The lane from there to the target's channel, where that is another.
    lane: Option<i32>,
    entry: i32,
    /// The target's channel.
    last: usize,
}

/// Places boxes, of which the first is the first layer, and leads the arrows between them. A layer that would be wider than
/// `widest` is broken.
pub fn lay_out(nodes: &[Node], widest: i32) -> Layout {
    let plan = Plan::of(nodes, widest);
    let columns = plan.columns();
    let courses: Vec<Vec<Course>> = (0..nodes.len()).map(|node| plan.courses(node, &columns)).collect();
    let tracks: Vec<Lines> = (0..plan.layers.len()).map(|channel| tracks(&courses, channel)).collect();
    let (channels, height) = plan.channels(&tracks);
    let corner = |node: usize| (columns[node], channels[plan.layer[node]] + depth(&tracks[plan.layer[node]]));
    let corners: Vec<Point> = (0..nodes.len()).map(corner).collect();
    let level = |channel: usize, net: usize| channels[channel] + ABOVE + TRACK * tracks[channel].line(net);
    let route = |node: usize, exit: &Exit, course: &Course| {
        let from = (columns[node] + nodes[node].width, corners[node].1 + exit.y);
        let points = course.points(from, corners[exit.target].1, level);
        Route { target: exit.target, points, back: plan.rises(node, exit.target) }
    };
    let leaving =
        |node: usize| nodes[node].exits.iter().zip(&courses[node]).map(|(exit, course)| route(node, exit, course)).collect();
    let routes = (0..nodes.len()).map(leaving).collect();
    Layout { width: plan.right_margin() + STEP * plan.right.count, height, corners, routes }
}

/// Layers by the least number of arrows from the first box, too wide ones broken; what no arrow leads to comes last.
fn layers(nodes: &[Node], widest: i32) -> Vec<Vec<usize>> {
    let depths = depths(nodes);
    let deepest = depths.iter().max().map_or(0, |&deepest| deepest);
    let mut layers: Vec<Vec<usize>> = Vec::new();
    for depth in 0..=deepest {
        let above = layers.last().map_or(&[][..], Vec::as_slice);
        let mut layer: Vec<usize> = (0..nodes.len()).filter(|&node| depths[node] == depth).collect();
        layer.sort_by_key(|&node| (mean_place(nodes, above, node), node));
        layers.push(layer);
    }
    layers.iter().flat_map(|layer| broken(nodes, layer, widest)).collect()
}

fn depths(nodes: &[Node]) -> Vec<usize> {
    let mut depths = vec![None; nodes.len()];
    let mut waiting = VecDeque::from([(0, 0)]);
    while let Some((node, depth)) = waiting.pop_front() {
        if let Some(unknown @ None) = depths.get_mut(node) {
            *unknown = Some(depth);
            waiting.extend(nodes[node].exits.iter().map(|exit| (exit.target, depth + 1)));
        }
    }
    let unreached = depths.iter().flatten().max().map_or(0, |&deepest| deepest + 1);
    depths.into_iter().map(|depth| depth.unwrap_or(unreached)).collect()
}

/// The mean place, in thousandths, of the arrows to a box among all that leave a layer.
fn mean_place(nodes: &[Node], layer: &[usize], node: usize) -> usize {
    let exits = layer.iter().flat_map(|&from| &nodes[from].exits).enumerate();
    let places: Vec<usize> = exits.filter(|(_, exit)| exit.target == node).map(|(place, _)| place).collect();
    places.iter().sum::<usize>() * 1000 / places.len().max(1)
}

/// A layer as one or more that are not too wide, if a box alone is not.
fn broken(nodes: &[Node], layer: &[usize], widest: i32) -> Vec<Vec<usize>> {
    let mut layers: Vec<Vec<usize>> = Vec::new();
    let mut left = 0;
    for &node in layer {
        let wide = room(&nodes[node]);
        match layers.last_mut() {
            Some(last) if wide <= left => last.push(node),
            _ => {
                layers.push(vec![node]);
                left = widest;
            }
        }
        left -= wide;
    }
    layers
}

/// The width of a box with the gap beside it.
fn room(node: &Node) -> i32 {
    let nets: BTreeSet<usize> = node.exits.iter().map(|exit| exit.target).collect();
    on_grid(node.width) + STEP * (nets.len() as i32 + 2)
}

/// The next column of the grid.
fn on_grid(x: i32) -> i32 {
    (x + STEP - 1) / STEP * STEP
}

/// How deep a channel is.
fn depth(tracks: &Lines) -> i32 {
    ABOVE + TRACK * (tracks.count - 1).max(0) + BELOW
}

/// The level lines of a channel.
fn tracks(courses: &[Vec<Course>], channel: usize) -> Lines {
    let mut spans: BTreeMap<usize, (i32, i32)> = BTreeMap::new();
    for (net, from, to) in courses.iter().flatten().flat_map(|course| course.level(channel)) {
        let span = spans.entry(net).or_insert((from, to));
        *span = (span.0.min(from), span.1.max(to));
    }
    let mut spans: Vec<Span> = spans.into_iter().map(|(net, (from, to))| Span { net, from, to: to + STEP }).collect();
    spans.sort_by_key(|span| (span.from, span.net));
    Lines::apart(&spans)
}

impl Lines {
    /// Each span in its turn has the first line on which it meets no other.
    fn apart(spans: &[Span]) -> Lines {
        let mut lines: Vec<Vec<&Span>> = Vec::new();
        let mut of = BTreeMap::new();
        for span in spans {
            let free = |line: &Vec<&Span>| line.iter().all(|other| other.to < span.from || span.to < other.from);
            let found = lines.iter().position(free).unwrap_or(lines.len());
            lines.resize(lines.len().max(found + 1), Vec::new());
            lines[found].push(span);
            of.insert(span.net, found as i32);
        }
        Lines { of, count: lines.len() as i32 }
    }

    fn line(&self, net: usize) -> i32 {
        self.of.get(&net).copied().unwrap_or(0)
    }
}

impl<'a> Plan<'a> {
    fn of(nodes: &'a [Node], widest: i32) -> Plan<'a> {
        let layers = layers(nodes, widest);
        let layer_of = |node: usize| layers.iter().position(|layer| layer.contains(&node)).unwrap_or(0);
        let layer: Vec<usize> = (0..nodes.len()).map(layer_of).collect();
        let mut plan = Plan { nodes, layers, layer, left: Lines::default(), right: Lines::default() };
        plan.left = plan.lanes(|from, to| (to < from).then_some((to, from)));
        plan.right = plan.lanes(|from, to| (from + 1 < to).then_some((from + 1, to)));
        plan
    }

    /// The lanes that nets need, between which channels an arrow from one layer to another needs one; the shortest come first.
    fn lanes(&self, needed: impl Fn(usize, usize) -> Option<(usize, usize)>) -> Lines {
        let mut spans: Vec<Span> = Vec::new();
        for net in 0..self.nodes.len() {
            let sources = (0..self.nodes.len()).filter(|&node| self.nodes[node].exits.iter().any(|exit| exit.target == net));
            let parts: Vec<(usize, usize)> = sources.filter_map(|source| needed(self.layer[source], self.layer[net])).collect();
            let (from, to) = (parts.iter().map(|part| part.0).min(), parts.iter().map(|part| part.1).max());
            spans.extend(from.zip(to).map(|(from, to)| Span { net, from: from as i32, to: to as i32 }));
        }
        spans.sort_by_key(|span| (span.to - span.from, span.from, span.net));
        Lines::apart(&spans)
    }

    /// Whether an arrow goes up from its box.
    fn rises(&self, node: usize, target: usize) -> bool {
        self.layer[target] <= self.layer[node]
    }

    /// The left side of each box.
    fn columns(&self) -> Vec<i32> {
        let mut columns = vec![0; self.nodes.len()];
        for layer in &self.layers {
            let mut x = STEP * (self.left.count + 1);
            for &node in layer {
                columns[node] = x;
                x += room(&self.nodes[node]);
            }
        }
        columns
    }

    /// Where the right margin begins.
    fn right_margin(&self) -> i32 {
        let wide = |layer: &Vec<usize>| layer.iter().map(|&node| room(&self.nodes[node])).sum::<i32>();
        STEP * (self.left.count + 1) + self.layers.iter().map(wide).max().unwrap_or(0)
    }

    /// The nets that leave a box, from the left: those that go up, the upmost first, then those that go down, the upmost last.
    fn gap(&self, node: usize) -> Vec<usize> {
        let exits = &self.nodes[node].exits;
        let mut nets: Vec<usize> = exits.iter().map(|exit| exit.target).collect();
        nets.sort_unstable();
        nets.dedup();
        let row = |net: usize| exits.iter().position(|exit| exit.target == net).unwrap_or(0);
        nets.sort_by_key(|&net| if self.rises(node, net) { (0, row(net)) } else { (1, exits.len() - row(net)) });
        nets
    }

    fn courses(&self, node: usize, columns: &[i32]) -> Vec<Course> {
        let gap = self.gap(node);
        let side = on_grid(columns[node] + self.nodes[node].width) + STEP;
        let course = |exit: &Exit| {
            let (net, up) = (exit.target, self.rises(node, exit.target));
            let place = gap.iter().position(|&other| other == net).unwrap_or(0) as i32;
            let channel = if up { self.layer[node] } else { self.layer[node] + 1 };
            let lane = if up { STEP * (self.left.count - self.left.line(net)) } else { self.right_lane(net) };
            Course {
                net,
                gap: side + STEP * place + if up { UP } else { 0 },
                channel,
                lane: (channel != self.layer[net]).then_some(lane),
                entry: columns[net] + self.nodes[net].width / 2 / STEP * STEP + ENTRY,
                last: self.layer[net],
            }
        };
        self.nodes[node].exits.iter().map(course).collect()
    }

    fn right_lane(&self, net: usize) -> i32 {
        self.right_margin() + STEP * self.right.line(net)
    }

    /// The top of each channel, and the height of all.
    fn channels(&self, tracks: &[Lines]) -> (Vec<i32>, i32) {
        let mut y = 0;
        let mut tops = Vec::new();
        for (layer, tracks) in self.layers.iter().zip(tracks) {
            tops.push(y);
            y += depth(tracks) + layer.iter().map(|&node| self.nodes[node].height).max().unwrap_or(0);
        }
        (tops, y)
    }
}

impl Course {
    /// What it takes of a channel's level lines.
    fn level(&self, channel: usize) -> impl Iterator<Item = (usize, i32, i32)> {
        let turn = self.lane.unwrap_or(self.entry);
        let first = (self.channel == channel).then_some((self.gap, turn));
        let second = (self.last == channel).then_some((turn, self.entry));
        let net = self.net;
        first.into_iter().chain(second).map(move |(a, b)| (net, a.min(b), a.max(b)))
    }

    /// From a box's side to the target's top.
    fn points(&self, exit: Point, top: i32, level: impl Fn(usize, usize) -> i32) -> Vec<Point> {
        let (first, last) = (level(self.channel, self.net), level(self.last, self.net));
        let mut points = vec![exit, (self.gap, exit.1), (self.gap, first)];
        points.extend(self.lane.into_iter().flat_map(|lane| [(lane, first), (lane, last)]));
        points.extend([(self.entry, last), (self.entry, top)]);
        points
    }
}

#[cfg(test)]
mod tests {
    use super::*;
    use sojimu_checks::second::random::Random;

    type Segment = (Point, Point);

    /// Boxes with arrows to any others.
    fn boxes(random: &mut Random) -> Vec<Node> {
        let count = 1 + random.below(32);
        let node = |_| {
            let rows = random.below(6);
            let exit = |row: usize| Exit { y: 34 + 20 * row as i32, target: random.below(count) };
            let exits: Vec<Exit> = (0..rows).map(exit).collect();
            Node { width: 90 + random.below(400) as i32, height: 24 + 20 * rows as i32, exits }
        };
        (0..count).map(node).collect()
    }

    /// The lines of all arrows, each with its net.
    fn segments(layout: &Layout) -> Vec<(usize, Segment)> {
        let routes = layout.routes.iter().flatten();
        routes.flat_map(|route| route.points.windows(2).map(|ends| (route.target, (ends[0], ends[1])))).collect()
    }

    /// What two rectangles share, where they share something.
    fn shared((a, b): Segment, (c, d): Segment) -> Option<Segment> {
        let low = (a.0.min(b.0).max(c.0.min(d.0)), a.1.min(b.1).max(c.1.min(d.1)));
        let high = (a.0.max(b.0).min(c.0.max(d.0)), a.1.max(b.1).min(c.1.max(d.1)));
        (low.0 <= high.0 && low.1 <= high.1).then_some((low, high))
    }

    fn corners(nodes: &[Node], layout: &Layout, node: usize) -> Segment {
        let (x, y) = layout.corners[node];
        ((x, y), (x + nodes[node].width, y + nodes[node].height))
    }

    fn every(check: impl Fn(&[Node], &Layout)) {
        let mut random = Random::new(1);
        for _ in 0..200 {
            let nodes = boxes(&mut random);
            check(&nodes, &lay_out(&nodes, 1000));
        }
    }

    #[test]
    fn arrows_lead_from_rows_to_tops() {
        every(|nodes, layout| {
            for (node, routes) in layout.routes.iter().enumerate() {
                assert_eq!(routes.len(), nodes[node].exits.len());
                for (exit, route) in nodes[node].exits.iter().zip(routes) {
                    let ((_, top), (right, _)) = corners(nodes, layout, node);
                    assert_eq!(route.points.first(), Some(&(right, top + exit.y)));
                    let ((left, top), (right, _)) = corners(nodes, layout, exit.target);
                    let (x, y) = route.points[route.points.len() - 1];
                    assert!(y == top && left < x && x < right);
                }
            }
        });
    }

    #[test]
    fn boxes_do_not_touch_and_stand_in_the_picture() {
        every(|nodes, layout| {
            for node in 0..nodes.len() {
                let one = corners(nodes, layout, node);
                assert!(one.0 .0 >= 0 && one.0 .1 >= 0 && one.1 .0 <= layout.width && one.1 .1 <= layout.height);
                assert!((0..node).all(|other| shared(one, corners(nodes, layout, other)).is_none()));
            }
        });
    }

    #[test]
    fn no_arrow_crosses_a_box() {
        every(|nodes, layout| {
            for (_, segment) in segments(layout) {
                for node in 0..nodes.len() {
                    let ((left, top), (right, bottom)) = corners(nodes, layout, node);
                    let inside = ((left + 1, top + 1), (right - 1, bottom - 1));
                    assert_eq!(shared(segment, inside), None);
                }
            }
        });
    }

    #[test]
    fn nets_cross_at_right_angles_or_not_at_all() {
        every(|_, layout| {
            let all = segments(layout);
            for (index, &(net, one)) in all.iter().enumerate() {
                for &(_, other) in all[..index].iter().filter(|(other, _)| *other != net) {
                    let ends = [one.0, one.1, other.0, other.1];
                    let met = shared(one, other);
                    assert!(met.is_none_or(|(low, high)| low == high && !ends.contains(&low)), "{one:?} and {other:?}");
                }
            }
        });
    }

    #[test]
    fn the_same_boxes_stand_the_same() {
        every(|nodes, layout| {
            let again = lay_out(nodes, 1000);
            assert_eq!((&again.corners, segments(&again)), (&layout.corners, segments(layout)));
        });
    }

    #[test]
    fn layers_are_no_wider_than_they_may_be() {
        every(|nodes, _| {
            let wide = |layer: &[usize]| layer.iter().map(|&node| room(&nodes[node])).sum::<i32>();
            assert!(layers(nodes, 1000).iter().all(|layer| layer.len() == 1 || wide(layer) <= 1000));
        });
    }
}
