//! The published calls, with points by number as they were made. Nothing here decides behaviour: each function hands its
//! arguments on and reads the answer back. One is ours, the insertion that is withdrawn where it is torn: it is run on a copy.
use crate::reading::{Knots, Point, Side, TORN};
use published::errors::Error;
use published::parking_lot::RwLock;
use published::position::Position;
use published::t_spline::{Tmesh, TmeshControlPoint, TmeshDirection, generate_knot_vectors, point_knot_vectors};
use std::sync::Arc;

type Shared = Arc<RwLock<TmeshControlPoint<Position>>>;

pub fn direction(d: usize) -> TmeshDirection {
    [TmeshDirection::Up, TmeshDirection::Right, TmeshDirection::Down, TmeshDirection::Left][d]
}

fn number(error: Error) -> u8 {
    error.number().unwrap_or_else(|| panic!("an error without a number: {error}"))
}

fn knots_from(s: &[f64], t: &[f64]) -> Knots {
    let five = |line: &[f64]| <[f64; 5]>::try_from(line).expect("five knots");
    Knots { s: five(s), t: five(t) }
}

/// The points, in the order in which they were made.
#[derive(Default)]
pub struct Store {
    pub points: Vec<Shared>,
}

impl Store {
    fn number_of(&self, point: &Shared) -> u8 {
        let place = self.points.iter().position(|made| Arc::ptr_eq(made, point));
        place.expect("every point that can be reached was made") as u8
    }

    fn shared(&self, point: u8) -> Shared {
        Arc::clone(&self.points[point as usize])
    }

    pub fn make(&mut self, weight: f64) {
        self.points.push(Arc::new(RwLock::new(TmeshControlPoint::new(Position([0.0; 3]), weight))))
    }

    pub fn connect(&self, point: u8, other: u8, d: usize, interval: f64) -> Result<(), u8> {
        TmeshControlPoint::connect(self.shared(point), self.shared(other), direction(d), interval).map_err(number)
    }

    pub fn remove_connection(&self, point: u8, d: usize) -> Result<(), u8> {
        self.shared(point).write().remove_connection(direction(d)).map_err(number)
    }

    pub fn remove_edge_condition(&self, point: u8, d: usize) -> Result<(), u8> {
        self.shared(point).write().remove_edge_condition(direction(d)).map_err(number)
    }

    pub fn set_edge_con_weight(&self, point: u8, d: usize, weight: f64) -> Result<(), u8> {
        self.shared(point).write().set_edge_con_weight(direction(d), weight).map_err(number)
    }

    pub fn set_knot_coordinates(&self, point: u8, horizontal: f64, vertical: f64) -> Result<(), u8> {
        self.shared(point).write().set_knot_coordinates(horizontal, vertical).map_err(number)
    }

    /// The point and the sum. Never called where the walk would go round.
    pub fn navigate_until_con(&self, start: u8, travel: usize, watch: usize) -> Result<(u8, f64), u8> {
        let found = self.shared(start).read().navigate_until_con(direction(travel), direction(watch));
        found.map(|(point, sum)| (self.number_of(&point), sum)).map_err(number)
    }

    pub fn cast_ray(&self, start: u8, d: usize, count: usize) -> Result<Vec<f64>, u8> {
        Tmesh::cast_ray(self.shared(start), direction(d), count).map_err(number)
    }

    /// The knots as the published conversion leaves them.
    pub fn point_knot_vectors(&self, point: u8) -> Result<Knots, u8> {
        point_knot_vectors(self.shared(point)).map(|(s, t)| knots_from(&s, &t)).map_err(number)
    }

    pub fn position(&self, point: u8) -> [f64; 3] {
        self.points[point as usize].read().point().0
    }

    fn side(&self, point: &TmeshControlPoint<Position>, d: usize) -> Side {
        match point.get(direction(d)) {
            None => Side::Opening,
            Some((None, weight)) => Side::Border(*weight),
            Some((Some(other), interval)) => Side::Link(self.number_of(other), *interval),
        }
    }

    fn read_point(&self, point: &Shared) -> Point {
        let point = point.read();
        let (horizontal, vertical) = point.knot_coordinates();
        Point { sides: std::array::from_fn(|d| self.side(&point, d)), coordinates: [horizontal, vertical] }
    }

    /// The store as it stands.
    pub fn read(&self) -> Vec<Point> {
        self.points.iter().map(|point| self.read_point(point)).collect()
    }

    /// The point made last.
    pub fn last(&self) -> Point {
        self.read_point(self.points.last().expect("a point was made"))
    }
}

/// The points hold each other: a store that goes cuts every link, so that they go too.
impl Drop for Store {
    fn drop(&mut self) {
        for point in &self.points {
            for d in 0..4 {
                let _ = point.write().remove_connection(direction(d));
            }
        }
    }
}

/// A published map, and every point made for it, listed or not.
pub struct Map {
    pub store: Store,
    mesh: Tmesh<Position>,
}

impl Map {
    pub fn new(corners: [[f64; 3]; 4], weight: f64) -> Map {
        let mesh = Tmesh::new(corners.map(Position), weight);
        let points = mesh.control_points().clone();
        Map { store: Store { points }, mesh }
    }

    /// The answer's number, 0 for done. A torn point is read from the link of the point that it was inserted at.
    pub fn add_control_point(&mut self, position: [f64; 3], con: u8, d: usize, ratio: f64) -> u8 {
        let con = self.store.shared(con);
        match self.mesh.add_control_point(Position(position), Arc::clone(&con), direction(d), ratio) {
            Ok(p) => {
                self.store.points.push(p);
                0
            }
            Err(error) => {
                let refusal = number(error);
                if refusal == TORN {
                    let torn = con.read().connected_point(direction(d));
                    self.store.points.push(torn);
                }
                refusal
            }
        }
    }

    /// A map like this one that shares no point with it.
    fn copy(&self) -> Map {
        let (mesh, points) = self.mesh.copy(&self.store.points);
        Map { store: Store { points }, mesh }
    }

    /// The insertion on a copy, which is thrown away where it is torn, and else taken for the map. A copy that is thrown away is
    /// handed out to be looked at.
    pub fn add_or_withdraw(&mut self, position: [f64; 3], con: u8, d: usize, ratio: f64) -> (u8, Option<Map>) {
        let mut copy = self.copy();
        let number = copy.add_control_point(position, con, d, ratio);
        if number == TORN {
            return (number, Some(copy));
        }
        *self = copy;
        (number, None)
    }

    pub fn subs(&self, s: f64, t: f64) -> Result<[f64; 3], u8> {
        self.mesh.subs(s, t).map(|position| position.0).map_err(number)
    }

    pub fn generate_knot_vectors(&self) -> Result<(), u8> {
        generate_knot_vectors(&self.mesh).map_err(number)
    }

    /// The rows of the listed points, in their order.
    pub fn kept(&self) -> Option<Vec<Knots>> {
        self.mesh.kept_knots().map(|rows| rows.iter().map(|(s, t)| knots_from(s, t)).collect())
    }

    pub fn listed(&self) -> Vec<u8> {
        self.mesh.control_points().iter().map(|point| self.store.number_of(point)).collect()
    }
}
