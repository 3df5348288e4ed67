//! A net that borrows its rows: the caller's own vectors, of the caller's own types, worked on where they are.

use crate::lending::{self, Arrays, InUse, Room, Shared, MOST_TRIANGLES, MOST_VERTICES};
use crate::raw::Used;
use crate::refusal::Carried;
use crate::{Clause, Eligible, Halfedge, Layout, Refusal, Workspace};
use std::marker::PhantomData;

/// A half-edge net over vectors that the caller keeps: every row that they hold is in use. Half-edges 3t, 3t+1 and 3t+2 are triangle t; normals and references
/// are empty or have a row for each triangle; properties have `num_prop` numbers a row.
///
/// Nothing is copied but what the operations themselves keep aside (the spares of `form_loop`, `collapse_edge` and the dedupes, by which a refusal puts everything
/// back). References are the exception: where an operation appends triangles, each new one gets a copy of an old one's reference, whole, with whatever fields
/// the type has; where one compares them (`collapse_edge` on a net with properties) their three numbers are written to the workspace, 12 bytes a triangle.
///
/// New rows go into the vectors' spare capacity. Where it is too little the vectors grow, and the call is made again: a caller sees [`Refusal::NoRoom`] at the bounds
/// of 1,000,000 triangles and vertices alone. After a refusal the vectors hold what they held.
///
/// ```
/// use spoonferret::{layout, NetMut, Workspace};
///
/// #[derive(Clone, Copy)]
/// struct Edge { from: i32, to: i32, twin: i32, prop: i32 }
/// #[derive(Clone, Copy)]
/// struct Point { x: f64, y: f64, z: f64 }
/// layout! {
///     struct Rows;
///     halfedge: Edge { from, to, twin, prop },
///     vector: Point { x, y, z },
///     reference: spoonferret::Reference { mesh_id, coplanar_id, face_id },
/// }
///
/// // two two-sided triangles that meet at vertex 0
/// let rows = [
///     [0, 1, 3], [1, 2, 5], [2, 0, 4], [1, 0, 0], [0, 2, 2], [2, 1, 1],
///     [0, 3, 9], [3, 4, 11], [4, 0, 10], [3, 0, 6], [0, 4, 8], [4, 3, 7],
/// ];
/// let mut edges: Vec<Edge> = rows.iter().map(|r| Edge { from: r[0], to: r[1], twin: r[2], prop: -1 }).collect();
/// let mut points: Vec<Point> = (0..5).map(|i| Point { x: i as f64, y: 0.0, z: 0.0 }).collect();
///
/// let mut work = Workspace::new();
/// let mut net = NetMut::<Rows> {
///     halfedges: &mut edges,
///     positions: &mut points,
///     normals: &mut Vec::new(),
///     references: &mut Vec::new(),
///     properties: &[],
///     num_prop: 0,
/// };
/// let split = net.split_pinched_verts(&mut work)?;
/// assert_eq!((split.added, split.visited.len()), (1, 12));
/// assert_eq!(points.len(), 6);
/// assert_eq!((edges[6].from, edges[8].to), (5, 5));
/// # Ok::<(), spoonferret::Refusal>(())
/// ```
pub struct NetMut<'n, L: Layout> {
    /// The half-edges, three a triangle.
    pub halfedges: &'n mut Vec<L::Halfedge>,
    /// The vertices' positions.
    pub positions: &'n mut Vec<L::Vector>,
    /// The triangles' normals, or none.
    pub normals: &'n mut Vec<L::Vector>,
    /// The triangles' references, or none.
    pub references: &'n mut Vec<L::Reference>,
    /// The properties, `num_prop` numbers a row. No operation writes them.
    pub properties: &'n [f64],
    /// The numbers in a row of properties.
    pub num_prop: usize,
}

/// What splitting did.
#[derive(Clone, Copy, Debug, PartialEq, Eq)]
pub struct Split<'w> {
    /// The vertices appended.
    pub added: usize,
    /// The half-edges visited, fan by fan; of each fan each half-edge after a turn, so that its first comes last.
    pub visited: &'w [u32],
}

impl<L: Layout> std::fmt::Debug for NetMut<'_, L> {
    fn fmt(&self, f: &mut std::fmt::Formatter<'_>) -> std::fmt::Result {
        f.debug_struct("NetMut")
            .field("halfedges", &self.halfedges.len())
            .field("positions", &self.positions.len())
            .field("normals", &self.normals.len())
            .field("references", &self.references.len())
            .field("properties", &self.properties.len())
            .field("num_prop", &self.num_prop)
            .finish()
    }
}

/// The spares as a call takes them.
macro_rules! spares {
    ($entry:ident, $arrays:expr, $work:expr $(, $more:expr)* $(,)?) => {
        call!(
            $entry,
            $arrays,
            $work.spare_halfedges.as_mut_ptr(),
            $work.spare_halfedges.len(),
            $work.spare_positions.as_mut_ptr(),
            $work.spare_positions.len(),
            $($more),*
        )
    };
}

/// The operations on the whole net: spares, a work buffer of the half-edge capacity and so many words more, and a list of the half-edge capacity.
macro_rules! on_the_whole {
    ($entry:ident, $net:expr, $work:expr, $used:ident, $words:expr) => {{
        let $used = $net.used()?;
        $work.spares($used.halfedges, $used.vertices);
        let first = $net.spare(Room { triangles: $used.halfedges / 48 + 64, vertices: $used.vertices / 16 + 64 });
        $net.growing($work, first, Room::ALL, true, |arrays, work| {
            let capacity = arrays.halfedges_length / Halfedge::NUMBERS;
            work.words(capacity + $words);
            work.list(capacity);
            let told = spares!($entry, arrays, work, work.words.as_mut_ptr(), work.words.len(), work.list.as_mut_ptr(), work.list.len());
            arrays.unless_done(told.number, Carried::row(told.row), InUse { halfedges: told.halfedges, vertices: told.vertices })
        })
    }};
}

impl<L: Layout> NetMut<'_, L> {
    fn shared(&self) -> Shared<'_, L> {
        Shared {
            halfedges: self.halfedges,
            positions: self.positions,
            normals: self.normals,
            references: self.references.len(),
            properties: self.properties,
            num_prop: self.num_prop,
        }
    }

    fn used(&self) -> Result<Used, Refusal> {
        self.shared().used()
    }

    /// The arrays, with so many free rows behind those in use; the vectors have room for them.
    fn lend(&mut self, room: Room) -> Result<Arrays<'_>, Refusal> {
        let used = self.used()?;
        let (halfedges, halfedge_rows) = lending::with_free(self.halfedges, 3 * room.triangles);
        let (positions, position_rows) = lending::with_free(self.positions, room.vertices);
        let (normals, normal_rows) = lending::with_free(self.normals, if used.normals == 0 { 0 } else { room.triangles });
        Ok(Arrays {
            used,
            halfedges: halfedges.cast(),
            halfedges_length: Halfedge::NUMBERS * halfedge_rows,
            positions: positions.cast(),
            positions_length: 3 * position_rows,
            normals: normals.cast(),
            normals_length: 3 * normal_rows,
            references: lending::none(),
            references_length: 0,
            properties: self.properties.as_ptr().cast(),
            properties_length: self.properties.len(),
            borrowed: PhantomData,
        })
    }

    fn lend_as_it_is(&mut self) -> Result<Arrays<'_>, Refusal> {
        self.lend(Room { triangles: 0, vertices: 0 })
    }

    /// Room that the vectors have, at most so much.
    fn spare(&self, most: Room) -> Room {
        let mut triangles = most.triangles.min((self.halfedges.capacity() - self.halfedges.len()) / 3);
        if !self.normals.is_empty() {
            triangles = triangles.min(self.normals.capacity() - self.normals.len());
        }
        Room { triangles, vertices: most.vertices.min(self.positions.capacity() - self.positions.len()) }
    }

    /// What the bounds leave.
    fn bounds(&self) -> Room {
        Room { triangles: MOST_TRIANGLES.saturating_sub(self.halfedges.len() / 3), vertices: MOST_VERTICES.saturating_sub(self.positions.len()) }
    }

    /// Sees to it that there is so much room. `exactly` is for operations on the whole net; an operation on one edge leaves more, as `push` does.
    fn reserve(&mut self, room: Room, exactly: bool) {
        fn reserve<T>(rows: &mut Vec<T>, more: usize, exactly: bool) {
            if exactly {
                rows.reserve_exact(more);
            } else {
                rows.reserve(more);
            }
        }
        reserve(self.halfedges, 3 * room.triangles, exactly);
        reserve(self.positions, room.vertices, exactly);
        if !self.normals.is_empty() {
            reserve(self.normals, room.triangles, exactly);
        }
    }

    /// Takes the rows that are in use after a call for the vectors'; each new triangle gets the reference that the call copied.
    fn keep(&mut self, rows: InUse, work: &mut Workspace) {
        let triangles = self.halfedges.len() / 3..rows.halfedges / 3;
        if !self.references.is_empty() {
            for from in work.copied(triangles.clone()) {
                self.references.push(self.references[from]);
            }
        }
        // SAFETY: a call that is done has in use the rows that were, and of those lent free
        unsafe {
            if !self.normals.is_empty() {
                lending::keep(self.normals, triangles.end);
            }
            lending::keep(self.halfedges, rows.halfedges);
            lending::keep(self.positions, rows.vertices);
        }
    }

    /// Makes a call that may append: with `room`, and on `NoRoom` with twice as much, and at least a sixteenth of the net, until there is `most` or what the bounds
    /// leave. Where an operation on the whole net is refused, the vectors give back what they grew; of one on an edge the room is there for the next.
    fn growing(
        &mut self,
        work: &mut Workspace,
        mut room: Room,
        most: Room,
        exactly: bool,
        mut call: impl FnMut(&mut Arrays<'_>, &mut Workspace) -> Result<InUse, Refusal>,
    ) -> Result<(), Refusal> {
        let most = most.least(self.bounds());
        let step = Room { triangles: self.halfedges.len() / 48 + 2, vertices: self.positions.len() / 16 + 2 };
        let (triangles, in_references) = (self.halfedges.len() / 3, !self.references.is_empty());
        let capacities = (self.halfedges.capacity(), self.positions.capacity(), self.normals.capacity());
        loop {
            room = room.least(most);
            self.reserve(room, exactly);
            // in the place of references, which a call that appends copies and does not read, the triangles' own numbers
            work.triangles(if in_references { triangles + room.triangles } else { 0 });
            let mut numbers = std::mem::take(&mut work.triangles);
            let said = self.lend(room).and_then(|mut arrays| {
                if in_references {
                    arrays.used.references = triangles;
                    arrays.references = numbers.as_mut_ptr();
                    arrays.references_length = 3 * (triangles + room.triangles);
                }
                call(&mut arrays, work)
            });
            work.triangles = numbers;
            match said {
                Ok(rows) => {
                    self.keep(rows, work);
                    return Ok(());
                }
                Err(refusal) => {
                    if in_references {
                        work.copied(triangles..triangles + room.triangles).for_each(drop);
                    }
                    if refusal != Refusal::NoRoom || room == most {
                        if exactly {
                            self.halfedges.shrink_to(capacities.0);
                            self.positions.shrink_to(capacities.1);
                            self.normals.shrink_to(capacities.2);
                        }
                        return Err(refusal);
                    }
                }
            }
            room = Room { triangles: (2 * room.triangles).max(step.triangles), vertices: (2 * room.vertices).max(step.vertices) };
        }
    }

    /// Whether the net is sound: what every operation on it asks for first, but for `pair_up` and `orbit_owners`.
    ///
    /// # Errors
    ///
    /// `Shape`; `Unsound` with the least row that is not in order and the clause that it breaks.
    pub fn check(&self) -> Result<(), Refusal> {
        check(&self.shared())
    }

    /// Why a row is not in order, as [`Net::explain_row`](crate::Net::explain_row) says it.
    ///
    /// # Errors
    ///
    /// `Shape`; `Number` where the row is not in use.
    pub fn explain_row(&self, row: i32) -> Result<Clause, Refusal> {
        explain_row(&self.shared(), row)
    }

    /// Makes two half-edges each other's partner, as [`Net::pair_up`](crate::Net::pair_up) does.
    ///
    /// # Errors
    ///
    /// `Shape`; `Number` where one of them is not in use.
    pub fn pair_up(&mut self, first: i32, second: i32) -> Result<(), Refusal> {
        let told = call!(spoonferret_pair_up, self.lend_as_it_is()?, first, second);
        Refusal::unless_done(told.number, ())
    }

    /// Sets a vertex on the way from one half-edge to another, as [`Net::update_vert`](crate::Net::update_vert) does.
    ///
    /// # Errors
    ///
    /// `Shape`; `Unsound`; `Number` of the vertex or a half-edge; `Dead` of a half-edge; `Stopped` where the walk does not come to `end`.
    pub fn update_vert(&mut self, vertex: i32, start: i32, end: i32) -> Result<(), Refusal> {
        let arrays = self.lend_as_it_is()?;
        let told = call!(spoonferret_update_vert, arrays, vertex, start, end);
        arrays.unless_done(told.number, Carried::row(told.row), ())
    }

    /// Takes a half-edge's triangle out, as [`Net::collapse_tri`](crate::Net::collapse_tri) does.
    ///
    /// # Errors
    ///
    /// `Shape`; `Unsound`; `Number` and `Dead` of the half-edge.
    pub fn collapse_tri(&mut self, halfedge: i32) -> Result<(), Refusal> {
        let arrays = self.lend_as_it_is()?;
        let told = call!(spoonferret_collapse_tri, arrays, halfedge);
        arrays.unless_done(told.number, Carried::row(told.row), ())
    }

    /// Takes out two triangles that lie on one another, as [`Net::remove_if_folded`](crate::Net::remove_if_folded) does.
    ///
    /// # Errors
    ///
    /// `Shape`; `Unsound`; `Number` and `Dead` of the half-edge.
    pub fn remove_if_folded(&mut self, halfedge: i32) -> Result<(), Refusal> {
        let arrays = self.lend_as_it_is()?;
        let told = call!(spoonferret_remove_if_folded, arrays, halfedge);
        arrays.unless_done(told.number, Carried::row(told.row), ())
    }

    /// Joins the net the other way across two half-edges, as [`Net::form_loop`](crate::Net::form_loop) does, with two vertices appended.
    ///
    /// # Errors
    ///
    /// `Shape`; `Unsound`; `Number` and `Dead` of a half-edge; `NoRoom` at the bound; `Stopped` where a walk from one to the other does not come there.
    pub fn form_loop(&mut self, work: &mut Workspace, first: i32, second: i32) -> Result<(), Refusal> {
        let used = self.used()?;
        work.spares(used.halfedges, used.vertices);
        let room = Room { triangles: 0, vertices: 2 };
        self.growing(work, room, room, false, |arrays, work| {
            let told = spares!(spoonferret_form_loop, arrays, work, first, second);
            arrays.unless_done(told.number, Carried::row(told.row), InUse { halfedges: used.halfedges, vertices: told.vertices })
        })
    }

    /// The owner of each fan, rising, as [`Net::orbit_owners`](crate::Net::orbit_owners) tells them.
    ///
    /// # Errors
    ///
    /// `Shape`; `NoOwners` where a pair of 0 or more does not point back, or an eligible half-edge's fan comes to a row without pair.
    pub fn orbit_owners<'w>(&self, work: &'w mut Workspace, eligible: Eligible) -> Result<&'w [u32], Refusal> {
        orbit_owners(&self.shared(), work, eligible)
    }

    /// Gives each fan a start vertex of its own, as [`Net::split_pinched_verts`](crate::Net::split_pinched_verts) does. Where the spare capacity of the positions is too
    /// little, the copies are counted and the vector grows by that many.
    ///
    /// # Errors
    ///
    /// `Shape`; `Unsound`; `NoRoom` at the bound. (`OpenFan` is never given on a sound net.)
    pub fn split_pinched_verts<'w>(&mut self, work: &'w mut Workspace) -> Result<Split<'w>, Refusal> {
        let used = self.used()?;
        work.words(used.halfedges + used.vertices);
        work.list(used.halfedges);
        let most = self.bounds().vertices;
        // a fan has two half-edges or more, so copies are at most half of them; few are wanted as a rule
        let mut vertices = self.spare(Room { triangles: 0, vertices: (used.vertices / 8 + 1024).min(used.halfedges / 2).min(most) }).vertices;
        loop {
            let arrays = self.lend(Room { triangles: 0, vertices })?;
            let told = call!(spoonferret_split_pinched_verts, arrays, work.words.as_mut_ptr(), work.words.len(), work.list.as_mut_ptr(), work.list.len());
            let said = arrays.unless_done(told.number, Carried::row(told.row), ());
            if said == Err(Refusal::NoRoom) {
                let wanted = work.copies(&arrays);
                if vertices < wanted && wanted <= most {
                    vertices = wanted;
                    self.reserve(Room { triangles: 0, vertices }, true);
                    continue;
                }
            }
            said?;
            self.keep(InUse { halfedges: used.halfedges, vertices: used.vertices + told.added }, work);
            return Ok(Split { added: told.added, visited: &work.list[..told.steps] });
        }
    }

    /// Takes a duplicate edge apart, as [`Net::dedupe_edge`](crate::Net::dedupe_edge) does, with at most two triangles and two vertices appended. A half-edge that is
    /// not duplicated is not refused.
    ///
    /// # Errors
    ///
    /// `Shape`; `Unsound`; `Number` and `Dead` of the half-edge; `NoRoom` at the bounds. (`Stopped` is never given on a sound net.)
    pub fn dedupe_edge(&mut self, work: &mut Workspace, halfedge: i32) -> Result<(), Refusal> {
        let used = self.used()?;
        work.spares(used.halfedges, used.vertices);
        let room = Room { triangles: 2, vertices: 2 };
        self.growing(work, room, room, false, |arrays, work| {
            let told = spares!(spoonferret_dedupe_edge, arrays, work, halfedge);
            arrays.unless_done(told.number, Carried::row(told.row), InUse { halfedges: told.halfedges, vertices: told.vertices })
        })
    }

    /// Takes the duplicate edges apart, in rounds, as [`Net::dedupe_edges`](crate::Net::dedupe_edges) does. New rows go into the spare capacity; where it is too little the vectors
    /// grow by twice as many rows as were too few, and the call begins again.
    ///
    /// # Errors
    ///
    /// `Shape`; `Unsound`; `NoRoom` at the bounds. (`Stopped` is never given on a sound net.)
    pub fn dedupe_edges(&mut self, work: &mut Workspace) -> Result<(), Refusal> {
        on_the_whole!(spoonferret_dedupe_edges, self, work, used, 0)
    }

    /// Splits and then takes the duplicate edges apart, as [`Net::cleanup_topology`](crate::Net::cleanup_topology) does. New rows go into the spare capacity; where it is too little the
    /// vectors grow by twice as many rows as were too few, and the call begins again.
    ///
    /// # Errors
    ///
    /// `Shape`; `Unsound`; `NoRoom` at the bounds. (`Stopped` is never given on a sound net.)
    pub fn cleanup_topology(&mut self, work: &mut Workspace) -> Result<(), Refusal> {
        on_the_whole!(spoonferret_cleanup_topology, self, work, used, used.vertices)
    }

    /// Takes a short edge out, as [`Net::collapse_edge`](crate::Net::collapse_edge) does. Where the net has properties and references, the references' numbers are
    /// written to the workspace first: 12 bytes a triangle.
    ///
    /// # Errors
    ///
    /// `Shape`; `Unsound`; `Number` and `Dead` of the half-edge; `Long` with the squared length and the limit; `NoRoom` at the bound; `Stopped` where a walk does not end.
    pub fn collapse_edge(&mut self, work: &mut Workspace, halfedge: i32, first_new_vert: i32, tol: f64, epsilon: f64) -> Result<(), Refusal> {
        let used = self.used()?;
        work.spares(used.halfedges, used.vertices);
        work.list(used.halfedges);
        let read = used.num_prop > 0;
        if read {
            work.faces.clear();
            work.faces.extend(self.references.iter().flat_map(L::face));
        }
        let first = Room { triangles: 0, vertices: 8 };
        self.growing(work, first, Room { triangles: 0, ..Room::ALL }, false, |arrays, work| {
            if read {
                arrays.references = work.faces.as_mut_ptr();
                arrays.references_length = work.faces.len();
            }
            let told = spares!(spoonferret_collapse_edge, arrays, work, work.list.as_mut_ptr(), work.list.len(), halfedge, first_new_vert, tol, epsilon);
            let carried = Carried::row(told.row).lengths(told.squared_length, told.limit);
            arrays.unless_done(told.number, carried, InUse { halfedges: used.halfedges, vertices: told.vertices })
        })
    }
}

/// check_net, of rows that are borrowed for reading.
pub(crate) fn check<L: Layout>(net: &Shared<'_, L>) -> Result<(), Refusal> {
    let arrays = net.arrays()?;
    let told = call!(spoonferret_check_net, arrays);
    arrays.unless_done(told.number, Carried::row(told.row), ())
}

/// explain_row, of rows that are borrowed for reading.
pub(crate) fn explain_row<L: Layout>(net: &Shared<'_, L>, row: i32) -> Result<Clause, Refusal> {
    let told = call!(spoonferret_explain_row, net.arrays()?, row);
    Refusal::unless_done(told.number, Clause::of(told.clause, told.other))
}

/// orbit_owners, of rows that are borrowed for reading.
pub(crate) fn orbit_owners<'w, L: Layout>(net: &Shared<'_, L>, work: &'w mut Workspace, eligible: Eligible) -> Result<&'w [u32], Refusal> {
    let arrays = net.arrays()?;
    work.bytes(arrays.used.halfedges);
    work.list(arrays.used.halfedges);
    let told = call!(
        spoonferret_orbit_owners,
        arrays,
        work.bytes.as_mut_ptr(),
        work.bytes.len(),
        work.list.as_mut_ptr(),
        work.list.len(),
        eligible == Eligible::StartAndEnd
    );
    Refusal::unless_done(told.number, &work.list[..told.count])
}
