// The calls of a drafting program, written against the original's text: its names, its order of arguments, its types. Whoever
// includes this file imports the names, and gives with `rest` what its `Arc` has besides the nine fields.

/// The whole types, arguments in their order: what is missing or different does not compile.
#[allow(clippy::type_complexity)]
pub fn signatures() {
    let _: fn(f64, f64) -> vect2d = vect2d::new;
    let _: fn(vect2d) -> Param<vect2d> = Param::new;
    let _: fn(f64) -> Param<f64> = Param::fixed;
    let _: fn(vect2d, f64, f64, f64, f64) -> vect2d = ellipse_point;
    let _: fn(f64, f64, f64, f64) -> vect2d = ellipse_tangent;
    let _: fn(&Arc, f64) -> vect2d = Arc::point_at;
    let _: fn(&Arc, f64) -> vect2d = Arc::tangent_at;
    let _: fn(&Arc) -> vect2d = Arc::start_pos;
    let _: fn(&Arc) -> vect2d = Arc::end_pos;
    let _: fn(vect2d, vect2d, vect2d) -> f64 = point_to_segment_dist;
    let _: fn(vect2d, vect2d, f64, f64, f64, bool, bool) -> Option<(vect2d, f64, f64, f64, f64)> = svg_arc_to_center;
    let _: fn(vect2d, vect2d, vect2d) -> Option<(vect2d, f64, f64, f64, bool)> = circumscribed_arc;
    let _: fn(vect2d, &Arc) -> (f64, vect2d) = point_to_arc_dist;
    let _: fn(&Arc, f64) -> vect2d = arc_tangent_at;
    let _: fn(&Arc, vect2d) -> f64 = arc_param_at_point;
    let _: fn(vect2d, vect2d, vect2d) -> Option<(vect2d, f64)> = circle_tangent_through;
    let _: fn(&Arc, f64) -> vect2d = arc_point_at;
    let _: fn(&Arc) -> vect2d = arc_start_pos;
    let _: fn(&Arc) -> vect2d = arc_end_pos;
    let _: fn(vect2d, vect2d, vect2d) -> vect2d = project_onto_segment;
    let _: fn(vect2d, vect2d, vect2d, vect2d) -> vect2d = line_line_intersection;
    let _: fn(&Arc, f64) -> Option<f64> = arc_param_in_span;
    let _: fn(vect2d, vect2d, vect2d, vect2d) -> Option<CurveHit> = intersect_segments;
    let _: fn(vect2d, vect2d, &Arc) -> Vec<CurveHit> = intersect_segment_arc;
    let _: fn(&Arc, &Arc) -> Vec<CurveHit> = intersect_arcs;
    let _: fn(&Arc, vect2d) -> f64 = nearest_arc_param;
    let _: fn(vect2d, vect2d, vect2d, vect2d, f64) -> Option<(vect2d, f64, f64, f64, f64, f64, bool)> = fit_earc_tangent;
}

fn place([x, y]: [f64; 2]) -> vect2d {
    vect2d::new(x, y)
}

#[allow(clippy::needless_update)]
fn arc(drawn: &Drawn) -> Arc {
    Arc {
        center: Param::new(place(drawn.center)),
        radius: Param::new(drawn.radius),
        radius_b: Param::new(drawn.radius_b),
        rotation: Param::fixed(drawn.rotation),
        start_angle: Param::new(drawn.start),
        end_angle: Param { ..Param::new(drawn.end) },
        closed: drawn.closed,
        is_ellipse: drawn.is_ellipse,
        ccw: drawn.ccw,
        ..rest()
    }
}

fn of_place(p: vect2d) -> Vec<f64> {
    vec![p.x, p.y]
}

fn of_hit(hit: &CurveHit) -> [f64; 4] {
    let CurveHit { t_a, t_b, pos } = *hit;
    [t_a, t_b, pos.x, pos.y]
}

fn of_hits(hits: Vec<CurveHit>) -> Vec<f64> {
    hits.iter().flat_map(of_hit).collect()
}

/// Every call on the drawing, with the numbers of its answer; no numbers for `None`.
pub fn answers(d: &Drawing) -> Vec<(&'static str, Vec<f64>)> {
    let [p, q, r, s] = d.places.map(place);
    let [t1, t2] = d.directions.map(place);
    let (a, b) = (arc(&d.a), arc(&d.b));
    let far = place(d.far);
    let (near, nearest) = point_to_arc_dist(far, &a);
    vec![
        ("ellipse_point", of_place(ellipse_point(p, d.rx, d.ry, d.rotation, d.t))),
        ("ellipse_tangent", of_place(ellipse_tangent(d.rx, d.ry, d.rotation, d.t))),
        ("point_at", of_place(a.point_at(d.t))),
        ("tangent_at", of_place(a.tangent_at(d.t))),
        ("start_pos", of_place(a.start_pos())),
        ("end_pos", of_place(a.end_pos())),
        ("arc_point_at", of_place(arc_point_at(&a, d.t))),
        ("arc_tangent_at", of_place(arc_tangent_at(&a, d.t))),
        ("arc_start_pos", of_place(arc_start_pos(&a))),
        ("arc_end_pos", of_place(arc_end_pos(&a))),
        ("arc_param_in_span", arc_param_in_span(&a, d.t).into_iter().collect()),
        ("arc_param_at_point", vec![arc_param_at_point(&a, p)]),
        ("point_to_segment_dist", vec![point_to_segment_dist(p, q, r)]),
        ("project_onto_segment", of_place(project_onto_segment(p, q, r))),
        ("line_line_intersection", of_place(line_line_intersection(p, q, r, s))),
        ("intersect_segments", intersect_segments(p, q, r, s).iter().flat_map(of_hit).collect()),
        ("intersect_segment_arc", of_hits(intersect_segment_arc(p, q, &a))),
        ("intersect_arcs", of_hits(intersect_arcs(&a, &b))),
        ("point_to_arc_dist", vec![near]),
        ("point_to_arc_dist's point", of_place(nearest)),
        ("nearest_arc_param", vec![nearest_arc_param(&a, far)]),
        ("svg_arc_to_center", of_svg(svg_arc_to_center(p, q, d.rx, d.ry, d.rotation, d.large_arc, d.sweep))),
        ("circle_tangent_through", circle_tangent_through(p, q, t1).map_or(vec![], |(c, radius)| vec![c.x, c.y, radius])),
        ("circumscribed_arc", circle_of(circumscribed_arc(p, q, r))),
        ("circumscribed_arc's angles", angles_of(circumscribed_arc(p, q, r))),
        ("fit_earc_tangent", fitted(fit_earc_tangent(p, t1, q, t2, d.bulge))),
    ]
}

fn of_svg(found: Option<(vect2d, f64, f64, f64, f64)>) -> Vec<f64> {
    found.map_or(vec![], |(center, start, end, rx, ry)| vec![center.x, center.y, start, end, rx, ry])
}

fn circle_of(found: Option<(vect2d, f64, f64, f64, bool)>) -> Vec<f64> {
    found.map_or(vec![], |(center, radius, .., ccw)| vec![center.x, center.y, radius, f64::from(ccw)])
}

fn angles_of(found: Option<(vect2d, f64, f64, f64, bool)>) -> Vec<f64> {
    found.map_or(vec![], |(_, _, start, end, _)| vec![start, end])
}

#[allow(clippy::type_complexity)]
fn fitted(found: Option<(vect2d, f64, f64, f64, f64, f64, bool)>) -> Vec<f64> {
    found.map_or(vec![], |(center, rx, ry, rotation, start, end, ccw)| {
        vec![center.x, center.y, rx, ry, rotation, start, end, f64::from(ccw)]
    })
}

/// Each call that takes an arc, with the arcs given as the program writes them.
macro_rules! calls_with {
    ($a:expr, $b:expr, $p:expr, $t:expr) => {{
        let (near, nearest) = point_to_arc_dist($p, $a);
        let mut numbers = vec![near, arc_param_at_point($a, $p), nearest_arc_param($a, $p)];
        numbers.extend(arc_param_in_span($a, $t));
        numbers.extend(of_hits(intersect_segment_arc($p, place([3.0, -2.0]), $a)));
        numbers.extend(of_hits(intersect_arcs($a, $b)));
        let places = [nearest, arc_point_at($a, $t), arc_tangent_at($a, $t), arc_start_pos($a), arc_end_pos($a)];
        numbers.extend(places.into_iter().flat_map(of_place));
        numbers.extend([$a.point_at($t), $a.tangent_at($t), $a.start_pos(), $a.end_pos()].into_iter().flat_map(of_place));
        numbers
    }};
}

/// The arcs given in each way that the original's `&Arc` takes. Every way has the same answers.
pub fn ways(d: &Drawing) -> Vec<Vec<f64>> {
    let (p, t) = (place(d.places[0]), d.t);
    let (mut a, mut b) = (arc(&d.a), arc(&d.b));
    let (boxed, counted, cell) = (Box::new(arc(&d.a)), std::rc::Rc::new(arc(&d.b)), std::cell::RefCell::new(arc(&d.b)));
    let listed = [arc(&d.a), arc(&d.b)];
    vec![
        calls_with!(&a, &b, p, t),
        calls_with!(&&a, &&&b, p, t),
        calls_with!(&mut a, &mut b, p, t),
        calls_with!(&boxed, &counted, p, t),
        calls_with!(boxed.as_ref(), &*counted, p, t),
        calls_with!(&listed[0], &cell.borrow(), p, t),
    ]
}

/// The functions given to others, and called in closures that say no type.
pub fn handed_on(d: &Drawing) -> bool {
    let listed = [arc(&d.a), arc(&d.b)];
    let starts: Vec<vect2d> = listed.iter().map(arc_start_pos).collect();
    let start_of = |a| arc_start_pos(a);
    let starts_of: Vec<vect2d> = listed.iter().map(|a| a.start_pos()).collect();
    starts.iter().zip(&starts_of).zip(&listed).all(|((p, q), a)| of_place(*p) == of_place(*q) && of_place(*q) == of_place(start_of(a)))
}
