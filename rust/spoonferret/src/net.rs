//! A net that owns its rows.

use crate::lending::Shared;
use crate::net_mut;
use crate::workspace::with_kept;
use crate::{Clause, Halfedge, NetMut, Own, Reference, Refusal, Vec3};

/// A half-edge net: every row that its vectors hold is in use. Half-edges 3t, 3t+1 and 3t+2 are triangle t; normals and references
/// are empty or have a row for each triangle; properties have `num_prop` numbers a row.
#[derive(Clone, Debug, Default, PartialEq)]
pub struct Net {
    /// The half-edges, three a triangle.
    pub halfedges: Vec<Halfedge>,
    /// The vertices' positions.
    pub positions: Vec<Vec3>,
    /// The triangles' normals, or none.
    pub normals: Vec<Vec3>,
    /// The triangles' references, or none.
    pub references: Vec<Reference>,
    /// The properties, `num_prop` numbers a row. No operation writes them.
    pub properties: Vec<f64>,
    /// The numbers in a row of properties.
    pub num_prop: usize,
}

/// Which half-edges the owner scan looks at.
#[derive(Clone, Copy, Debug, PartialEq, Eq)]
pub enum Eligible {
    /// those whose start is 0 or more
    Start,
    /// those whose start and end are both 0 or more
    StartAndEnd,
}

impl Net {
    fn shared(&self) -> Shared<'_, Own> {
        Shared {
            halfedges: &self.halfedges,
            positions: &self.positions,
            normals: &self.normals,
            references: self.references.len(),
            properties: &self.properties,
            num_prop: self.num_prop,
        }
    }

    /// The net borrowed, for calls that are lent a [`Workspace`](crate::Workspace). The methods here work in buffers that the thread keeps.
    pub fn borrowed(&mut self) -> NetMut<'_, Own> {
        NetMut {
            halfedges: &mut self.halfedges,
            positions: &mut self.positions,
            normals: &mut self.normals,
            references: &mut self.references,
            properties: &self.properties,
            num_prop: self.num_prop,
        }
    }

    /// Whether the net is sound: what every operation on it asks for first, but for `pair_up` and `orbit_owners`.
    ///
    /// # Errors
    ///
    /// `Shape`; `Unsound` with the least row that is not in order and the clause that it breaks.
    pub fn check(&self) -> Result<(), Refusal> {
        net_mut::check(&self.shared())
    }

    /// Why a row is not in order: the first clause that it breaks, of any row; of the least, `Unsound` carries it. The net need not be sound.
    ///
    /// ```
    /// use spoonferret::{Clause, Halfedge, Net, Refusal, Vec3};
    /// let rows = [[0, 1, 3], [1, 2, 5], [2, 0, 4], [1, 0, 0], [0, 1, 2], [2, 1, 1]];
    /// let net = Net {
    ///     halfedges: rows.iter().map(|r| Halfedge::new(r[0], r[1], r[2], -1)).collect(),
    ///     positions: vec![Vec3::default(); 3],
    ///     ..Net::default()
    /// };
    /// let clause = net.explain_row(2)?;
    /// assert_eq!(clause, Clause::NotMirrored { partner: 4 });
    /// assert_eq!(clause.to_string(), "its partner, row 4, does not run the opposite way between the same two vertices");
    /// assert_eq!(net.check(), Err(Refusal::Unsound { row: 2, clause }));
    /// assert_eq!(net.explain_row(0), Ok(Clause::InOrder));
    /// assert_eq!(net.explain_row(6), Err(Refusal::Number));
    /// # Ok::<(), Refusal>(())
    /// ```
    ///
    /// # Errors
    ///
    /// `Shape`; `Number` where the row is not in use.
    pub fn explain_row(&self, row: i32) -> Result<Clause, Refusal> {
        net_mut::explain_row(&self.shared(), row)
    }

    /// Makes two half-edges each other's partner. The net need not be sound, and nothing but the two pair fields is written.
    ///
    /// # Errors
    ///
    /// `Shape`; `Number` where one of them is not in use.
    ///
    /// ```
    /// use spoonferret::{Halfedge, Net, Refusal};
    /// let mut net = Net { halfedges: vec![Halfedge::default(); 3], ..Net::default() };
    /// assert_eq!(net.pair_up(0, 2), Ok(()));
    /// assert_eq!((net.halfedges[0].paired_halfedge, net.halfedges[2].paired_halfedge), (2, 0));
    /// assert_eq!(net.pair_up(0, 3), Err(Refusal::Number));
    /// ```
    pub fn pair_up(&mut self, first: i32, second: i32) -> Result<(), Refusal> {
        self.borrowed().pair_up(first, second)
    }

    /// Walks about a vertex from `start` to `end` and sets `vertex` on the way: on the end of each half-edge and the start of its next,
    /// before it goes to that next's partner. `end` itself is not written, and `start` equal to `end` does nothing. Refused by `Stopped`
    /// where the walk does not come to `end`. The net is as a rule not sound afterwards: this is a step of larger surgery.
    ///
    /// # Errors
    ///
    /// `Shape`; `Unsound`; `Number` of the vertex or a half-edge; `Dead` of a half-edge; `Stopped` where the walk does not come to `end`.
    ///
    /// ```
    /// use spoonferret::{Halfedge, Net, Refusal, Vec3};
    /// // two triangles back to back, and a loose vertex 3
    /// let rows = [[0, 1, 3], [1, 2, 5], [2, 0, 4], [1, 0, 0], [0, 2, 2], [2, 1, 1]];
    /// let mut net = Net {
    ///     halfedges: rows.iter().map(|r| Halfedge::new(r[0], r[1], r[2], -1)).collect(),
    ///     positions: vec![Vec3::default(); 4],
    ///     ..Net::default()
    /// };
    /// // half-edges 0 and 5 end at vertex 1
    /// assert_eq!(net.update_vert(3, 0, 1), Err(Refusal::Stopped));
    /// assert_eq!(net.update_vert(3, 0, 5), Ok(()));
    /// assert_eq!((net.halfedges[0].end_vert, net.halfedges[1].start_vert, net.halfedges[5].end_vert), (3, 3, 1));
    /// ```
    pub fn update_vert(&mut self, vertex: i32, start: i32, end: i32) -> Result<(), Refusal> {
        self.borrowed().update_vert(vertex, start, end)
    }

    /// Takes a half-edge's triangle out: the partners of its second and third rows, counted from the half-edge, become each other's, and
    /// its three rows are emptied and keep their `prop_vert`. The half-edge's own partner still points to it: this is a step of larger surgery.
    ///
    /// # Errors
    ///
    /// `Shape`; `Unsound`; `Number` and `Dead` of the half-edge.
    ///
    /// ```
    /// use spoonferret::{Halfedge, Net, Refusal, Vec3};
    /// // two triangles back to back
    /// let rows = [[0, 1, 3], [1, 2, 5], [2, 0, 4], [1, 0, 0], [0, 2, 2], [2, 1, 1]];
    /// let mut net = Net {
    ///     halfedges: rows.iter().map(|r| Halfedge::new(r[0], r[1], r[2], 7)).collect(),
    ///     positions: vec![Vec3::default(); 3],
    ///     ..Net::default()
    /// };
    /// assert_eq!(net.collapse_tri(6), Err(Refusal::Number));
    /// assert_eq!(net.collapse_tri(0), Ok(()));
    /// assert_eq!((net.halfedges[5].paired_halfedge, net.halfedges[4].paired_halfedge), (4, 5));
    /// assert_eq!(net.halfedges[..3], [Halfedge::new(-1, -1, -1, 7); 3]);
    /// ```
    pub fn collapse_tri(&mut self, halfedge: i32) -> Result<(), Refusal> {
        self.borrowed().collapse_tri(halfedge)
    }

    /// Takes out the two triangles at an edge where they lie on one another: they have the same opposite vertex, and a second edge in
    /// common. Their six rows are emptied, `prop_vert` too, what lay beside them is joined, and a vertex that nothing is left of gets NaN for
    /// its position. Where they are not folded so, nothing changes and it is done all the same.
    ///
    /// # Errors
    ///
    /// `Shape`; `Unsound`; `Number` and `Dead` of the half-edge.
    ///
    /// ```
    /// use spoonferret::{Halfedge, Net, Vec3};
    /// // two triangles back to back: nothing is left of them
    /// let rows = [[0, 1, 3], [1, 2, 5], [2, 0, 4], [1, 0, 0], [0, 2, 2], [2, 1, 1]];
    /// let mut net = Net {
    ///     halfedges: rows.iter().map(|r| Halfedge::new(r[0], r[1], r[2], 7)).collect(),
    ///     positions: vec![Vec3::default(); 3],
    ///     ..Net::default()
    /// };
    /// assert_eq!(net.remove_if_folded(0), Ok(()));
    /// assert_eq!(net.halfedges, [Halfedge::new(-1, -1, -1, -1); 6]);
    /// assert!(net.positions.iter().all(|p| p.x.is_nan() && p.y.is_nan() && p.z.is_nan()));
    /// ```
    pub fn remove_if_folded(&mut self, halfedge: i32) -> Result<(), Refusal> {
        self.borrowed().remove_if_folded(halfedge)
    }

    /// Joins the net the other way across two half-edges that run between the same two vertices: the positions of the first's start and end
    /// are appended, the copies are set on one side, the two pairs are exchanged, and `remove_if_folded` is done at the second. Refused by
    /// `Stopped` where a walk from one to the other does not come there, and by `NoRoom` at the bound of 1,000,000 vertices.
    ///
    /// # Errors
    ///
    /// `Shape`; `Unsound`; `Number` and `Dead` of a half-edge; `NoRoom`; `Stopped`.
    ///
    /// ```
    /// use spoonferret::{Halfedge, Net, Vec3};
    /// // the edge from 0 to 1 is there twice: half-edges 0 and 6
    /// let rows = [
    ///     [0, 1, 9], [1, 2, 5], [2, 0, 4], [1, 0, 6], [0, 2, 2], [2, 1, 1],
    ///     [0, 1, 3], [1, 3, 11], [3, 0, 10], [1, 0, 0], [0, 3, 8], [3, 1, 7],
    /// ];
    /// let mut net = Net {
    ///     halfedges: rows.iter().map(|r| Halfedge::new(r[0], r[1], r[2], -1)).collect(),
    ///     positions: (0..4).map(|i| Vec3::new(i as f64, 0.0, 0.0)).collect(),
    ///     ..Net::default()
    /// };
    /// assert_eq!(net.form_loop(0, 6), Ok(()));
    /// assert_eq!(net.positions.len(), 6);
    /// // the first's triangles stand by themselves; the second's lay on one another then, and are gone with the copies
    /// assert_eq!((net.halfedges[0].paired_halfedge, net.halfedges[3].paired_halfedge), (3, 0));
    /// assert_eq!(net.halfedges[6..], [Halfedge::new(-1, -1, -1, -1); 6]);
    /// assert!(net.positions[4].x.is_nan() && net.positions[5].x.is_nan());
    /// assert_eq!(net.check(), Ok(()));
    /// ```
    pub fn form_loop(&mut self, first: i32, second: i32) -> Result<(), Refusal> {
        with_kept(|work| self.borrowed().form_loop(work, first, second))
    }

    /// The owner of each fan, rising: the least of its half-edges that are eligible, where it has one. The net need not be sound; refused by
    /// `NoOwners` where a pair of 0 or more does not point back, or an eligible half-edge's fan comes to a row without pair.
    ///
    /// # Errors
    ///
    /// `Shape`; `NoOwners`.
    ///
    /// ```
    /// use spoonferret::{Eligible, Halfedge, Net, Refusal};
    /// // two triangles back to back: a fan at each of three vertices
    /// let rows = [[0, 1, 3], [1, 2, 5], [2, 0, 4], [1, 0, 0], [0, 2, 2], [2, 1, 1]];
    /// let mut net = Net { halfedges: rows.iter().map(|r| Halfedge::new(r[0], r[1], r[2], -1)).collect(), ..Net::default() };
    /// assert_eq!(net.orbit_owners(Eligible::Start), Ok(vec![0, 1, 2]));
    /// net.halfedges[0].end_vert = -1;
    /// assert_eq!(net.orbit_owners(Eligible::StartAndEnd), Ok(vec![1, 2, 4]));
    /// net.halfedges[0].paired_halfedge = -1;
    /// assert_eq!(net.orbit_owners(Eligible::Start), Err(Refusal::NoOwners));
    /// ```
    pub fn orbit_owners(&self, eligible: Eligible) -> Result<Vec<u32>, Refusal> {
        with_kept(|work| net_mut::orbit_owners(&self.shared(), work, eligible).map(<[u32]>::to_vec))
    }

    /// Gives each fan a start vertex of its own: the first at a vertex keeps it, each later one gets a copy of the position behind the others.
    /// The half-edges visited, fan by fan.
    ///
    /// # Errors
    ///
    /// `Shape`; `Unsound`; `NoRoom` at the bound of 1,000,000 vertices. (`OpenFan` is never given on a sound net.)
    ///
    /// ```
    /// use spoonferret::{Halfedge, Net, Vec3};
    /// // document 01's example: two two-sided triangles that meet at vertex 0
    /// let file = "form=1\nverts=5\ntris=4
    /// p=0000000000000000,0000000000000000,0000000000000000
    /// p=3ff0000000000000,0000000000000000,0000000000000000
    /// p=0000000000000000,3ff0000000000000,0000000000000000
    /// p=bff0000000000000,0000000000000000,0000000000000000
    /// p=0000000000000000,4000000000000000,0000000000000000
    /// h=0,1,3,-1\nh=1,2,5,-1\nh=2,0,4,-1\nh=1,0,0,-1\nh=0,2,2,-1\nh=2,1,1,-1
    /// h=0,3,9,-1\nh=3,4,11,-1\nh=4,0,10,-1\nh=3,0,6,-1\nh=0,4,8,-1\nh=4,3,7,-1";
    /// let mut net = Net::default();
    /// for line in file.lines() {
    ///     if let Some(p) = line.strip_prefix("p=") {
    ///         let at: Vec<f64> = p.split(',').map(|x| f64::from_bits(u64::from_str_radix(x, 16).unwrap())).collect();
    ///         net.positions.push(Vec3::new(at[0], at[1], at[2]));
    ///     }
    ///     if let Some(h) = line.strip_prefix("h=") {
    ///         let row: Vec<i32> = h.split(',').map(|x| x.parse().unwrap()).collect();
    ///         net.halfedges.push(Halfedge::new(row[0], row[1], row[2], row[3]));
    ///     }
    /// }
    ///
    /// let visited = net.split_pinched_verts()?;
    /// assert_eq!(visited, [4, 0, 3, 1, 5, 2, 10, 6, 9, 7, 11, 8]);
    /// // one vertex more, where vertex 0 is; rows 6 and 10 start there, rows 8 and 9 end there
    /// assert_eq!(net.positions.len(), 6);
    /// assert_eq!(net.positions[5], net.positions[0]);
    /// assert_eq!((net.halfedges[6].start_vert, net.halfedges[10].start_vert), (5, 5));
    /// assert_eq!((net.halfedges[8].end_vert, net.halfedges[9].end_vert), (5, 5));
    /// # Ok::<(), spoonferret::Refusal>(())
    /// ```
    pub fn split_pinched_verts(&mut self) -> Result<Vec<u32>, Refusal> {
        with_kept(|work| self.borrowed().split_pinched_verts(work).map(|split| split.visited.to_vec()))
    }

    /// Takes a duplicate edge apart: `halfedge` is duplicated where another of its fan ends at the same vertex. Where the two lie in one fan of the end
    /// as well, the end is copied for the half-edges between them, and two triangles are appended that fill the gap, with the `prop_vert`s, references and
    /// normals of what lies beside them; else a whole fan gets a copy of the end. The net is sound afterwards.
    ///
    /// A half-edge that is NOT duplicated is not refused: its corners move to copies of the end's position, as the Rust's do. `dedupe_edges` asks first.
    ///
    /// # Errors
    ///
    /// `Shape`, `Unsound` with the least row that is not in order and the clause that it breaks, `Number` and `Dead` of the half-edge, and `NoRoom` at the bounds of 1,000,000 triangles and
    /// vertices. The net is as it was. (`Stopped` is never given on a sound net.)
    ///
    /// ```
    /// use spoonferret::{Halfedge, Net, Refusal, Vec3};
    /// // the edge from 0 to 1 is there twice: half-edges 0 and 9
    /// let rows = [
    ///     [0, 1, 6], [1, 2, 5], [2, 0, 4], [1, 0, 9], [0, 2, 2], [2, 1, 1],
    ///     [1, 0, 0], [0, 3, 11], [3, 1, 10], [0, 1, 3], [1, 3, 8], [3, 0, 7],
    /// ];
    /// let mut net = Net {
    ///     halfedges: rows.iter().map(|r| Halfedge::new(r[0], r[1], r[2], -1)).collect(),
    ///     positions: (0..4).map(|i| Vec3::new(i as f64, 0.0, 0.0)).collect(),
    ///     ..Net::default()
    /// };
    /// assert_eq!(net.dedupe_edge(12), Err(Refusal::Number));
    /// assert_eq!(net.dedupe_edge(9), Ok(()));
    /// // two triangles more, and a vertex 4 where vertex 1 is
    /// assert_eq!((net.halfedges.len(), net.positions.len()), (18, 5));
    /// assert_eq!(net.positions[4], net.positions[1]);
    /// assert_eq!(net.halfedges[9], Halfedge::new(0, 4, 3, -1));
    /// assert_eq!(net.check(), Ok(()));
    /// ```
    pub fn dedupe_edge(&mut self, halfedge: i32) -> Result<(), Refusal> {
        with_kept(|work| self.borrowed().dedupe_edge(work, halfedge))
    }

    /// Takes the duplicate edges of a net apart, in rounds: each lists the half-edges of which a smaller one of the same fan ends at the same vertex, and does
    /// `dedupe_edge` at each that is so still. It ends with a round that lists none, or after as many rounds as there were half-edges. The net is sound
    /// afterwards. A net with pinched vertices wants `cleanup_topology`: a corner of it can move here.
    ///
    /// # Errors
    ///
    /// `Shape`, `Unsound` with the least row that is not in order and the clause that it breaks, and `NoRoom` at the bounds of 1,000,000 triangles and vertices. The net is as it was.
    /// (`Stopped` is never given on a sound net.)
    ///
    /// ```
    /// use spoonferret::{Halfedge, Net, Vec3};
    /// // the edge from 0 to 1 is there twice: half-edges 0 and 9
    /// let rows = [
    ///     [0, 1, 6], [1, 2, 5], [2, 0, 4], [1, 0, 9], [0, 2, 2], [2, 1, 1],
    ///     [1, 0, 0], [0, 3, 11], [3, 1, 10], [0, 1, 3], [1, 3, 8], [3, 0, 7],
    /// ];
    /// let mut net = Net {
    ///     halfedges: rows.iter().map(|r| Halfedge::new(r[0], r[1], r[2], -1)).collect(),
    ///     positions: (0..4).map(|i| Vec3::new(i as f64, 0.0, 0.0)).collect(),
    ///     ..Net::default()
    /// };
    /// assert_eq!(net.dedupe_edges(), Ok(()));
    /// assert_eq!((net.halfedges.len(), net.positions.len()), (18, 5));
    /// // nothing is left to do
    /// let before = net.clone();
    /// assert_eq!(net.dedupe_edges(), Ok(()));
    /// assert_eq!(net, before);
    /// assert_eq!(Net::default().dedupe_edges(), Ok(()));
    /// ```
    pub fn dedupe_edges(&mut self) -> Result<(), Refusal> {
        with_kept(|work| self.borrowed().dedupe_edges(work))
    }

    /// `split_pinched_verts` and then `dedupe_edges`, in one call: each fan gets a start vertex of its own, and the duplicate edges are taken apart. The net is
    /// sound afterwards. An empty net is done.
    ///
    /// # Errors
    ///
    /// `Shape`, `Unsound` with the least row that is not in order and the clause that it breaks, and `NoRoom` at the bounds of 1,000,000 triangles and vertices. The net is as it was.
    /// (`Stopped` is never given on a sound net.)
    ///
    /// ```
    /// use spoonferret::{Halfedge, Net, Vec3};
    /// // document 01's example: two two-sided triangles that meet at vertex 0
    /// let rows = [
    ///     [0, 1, 3], [1, 2, 5], [2, 0, 4], [1, 0, 0], [0, 2, 2], [2, 1, 1],
    ///     [0, 3, 9], [3, 4, 11], [4, 0, 10], [3, 0, 6], [0, 4, 8], [4, 3, 7],
    /// ];
    /// let mut net = Net {
    ///     halfedges: rows.iter().map(|r| Halfedge::new(r[0], r[1], r[2], -1)).collect(),
    ///     positions: (0..5).map(|i| Vec3::new(i as f64, 0.0, 0.0)).collect(),
    ///     ..Net::default()
    /// };
    /// assert_eq!(net.cleanup_topology(), Ok(()));
    /// // vertex 5 is where vertex 0 is; no edge was there twice
    /// assert_eq!((net.halfedges.len(), net.positions.len()), (12, 6));
    /// assert_eq!((net.halfedges[6].start_vert, net.halfedges[10].start_vert), (5, 5));
    /// assert_eq!(Net::default().cleanup_topology(), Ok(()));
    /// ```
    pub fn cleanup_topology(&mut self) -> Result<(), Refusal> {
        with_kept(|work| self.borrowed().cleanup_topology(work))
    }

    /// Takes a short edge out: its two triangles go, its start's position becomes NaN, and what met the start meets the end. Short is what
    /// [`short_test`](crate::short_test) says of the two positions, the half-edge's end vertex, `first_new_vert`, `tol` and `epsilon`. Where the two vertices
    /// have another neighbour in common a loop is formed, as by `form_loop`, with two vertices more.
    ///
    /// Where the net has no pinched vertex and no duplicate edge it was sound afterwards in every run; of other nets it may not be. So do `cleanup_topology`
    /// before.
    ///
    /// # Errors
    ///
    /// `Shape`, `Unsound` with the least row that is not in order and the clause that it breaks, `Number` and `Dead` of the half-edge, `Long` with the squared length and the limit, `NoRoom`
    /// at the bound of 1,000,000 vertices, and `Stopped` where a walk does not end. The net is as it was.
    ///
    /// ```
    /// use spoonferret::{Halfedge, Net, Refusal, Vec3};
    /// // two triangles back to back
    /// let rows = [[0, 1, 3], [1, 2, 5], [2, 0, 4], [1, 0, 0], [0, 2, 2], [2, 1, 1]];
    /// let mut net = Net {
    ///     halfedges: rows.iter().map(|r| Halfedge::new(r[0], r[1], r[2], 7)).collect(),
    ///     positions: vec![Vec3::new(0.0, 0.0, 0.0), Vec3::new(3.0, 4.0, 0.0), Vec3::new(0.0, 9.0, 0.0)],
    ///     ..Net::default()
    /// };
    /// // 25 is not below 25
    /// assert_eq!(net.collapse_edge(0, 2, 5.0, 0.0), Err(Refusal::Long { squared_length: 25.0, limit: 25.0 }));
    /// assert_eq!(net.collapse_edge(0, 2, -1.0, 6.0), Ok(()));
    /// // nothing is left but the props
    /// assert_eq!(net.halfedges, [Halfedge::new(-1, -1, -1, 7); 6]);
    /// assert!(net.positions[0].x.is_nan() && !net.positions[1].x.is_nan());
    /// ```
    pub fn collapse_edge(&mut self, halfedge: i32, first_new_vert: i32, tol: f64, epsilon: f64) -> Result<(), Refusal> {
        with_kept(|work| self.borrowed().collapse_edge(work, halfedge, first_new_vert, tol, epsilon))
    }
}
