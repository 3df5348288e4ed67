//! The caller's own types as rows of a net. A type is taken as it is, without copying, where its layout is proved when the program is
//! compiled; any other is a compile error that says what does not fit.

/// The row types of a caller's net: made by [`layout!`](crate::layout), which proves what the library needs of them.
///
/// # Safety
///
/// `Halfedge` is four `i32` and nothing besides, in the order start, end, pair, prop; `Vector` is three `f64` and nothing besides, in the order x, y, z.
pub unsafe trait Layout: Sized {
    /// A half-edge.
    type Halfedge: HalfedgeRow<Self>;
    /// A position or a normal.
    type Vector: Copy;
    /// What a triangle refers to. It is copied as it is, with whatever fields it has.
    type Reference: Copy;

    /// `mesh_id`, `coplanar_id` and `face_id`: two references are the same face where all three agree.
    fn face(reference: &Self::Reference) -> [i32; 3];
}

/// A half-edge type that a [`Layout`] names; by it [`edge_op::pair_up`](crate::edge_op::pair_up) finds the layout of a slice.
///
/// # Safety
///
/// It is four `i32` and nothing besides, in the order start, end, pair, prop.
pub unsafe trait HalfedgeRow<L>: Copy {}

/// The types that fields must have, for [`layout!`](crate::layout): each trait is that of one type, and nobody can give it to another.
#[doc(hidden)]
pub mod fits {
    mod sealed {
        pub trait I32 {}
        impl I32 for i32 {}
        pub trait F64 {}
        impl F64 for f64 {}
    }

    #[diagnostic::on_unimplemented(message = "spoonferret: each field of a half-edge must be an i32, and this one is `{Self}`", label = "a field that is not an i32")]
    pub trait Integer: sealed::I32 {}
    impl Integer for i32 {}

    #[diagnostic::on_unimplemented(message = "spoonferret: each field of a vector must be an f64, and this one is `{Self}`", label = "a field that is not an f64")]
    pub trait Coordinate: sealed::F64 {}
    impl Coordinate for f64 {}

    pub const fn integer<T: Integer>(_: *const T) {}
    pub const fn coordinate<T: Coordinate>(_: *const T) {}
}

/// Names the types that a net's rows have, and proves that the library can use them as they are.
///
/// Of each type its fields are named in the library's order: of a half-edge start, end, pair and prop, each an `i32`; of a vector (position or normal) x, y and z,
/// each an `f64`; of a reference mesh, coplanar and face, each an `i32`. A half-edge and a vector must hold these fields in this order and nothing besides,
/// which is proved by constants of their size, alignment and offsets, and by the fields' types; a reference may have other fields, in any order, and they are
/// kept.
///
/// ```
/// mod theirs {
///     #[derive(Clone, Copy)]
///     pub struct Halfedge { pub start_vert: i32, pub end_vert: i32, pub paired_halfedge: i32, pub prop_vert: i32 }
///     #[derive(Clone, Copy)]
///     #[repr(C)]
///     pub struct Vec3 { pub x: f64, pub y: f64, pub z: f64 }
///     #[derive(Clone, Copy)]
///     pub struct TriRef { pub mesh_id: i32, pub original_id: i32, pub face_id: i32, pub coplanar_id: i32 }
/// }
///
/// spoonferret::layout! {
///     /// The rows of the station's mesh.
///     pub struct Rows;
///     halfedge: theirs::Halfedge { start_vert, end_vert, paired_halfedge, prop_vert },
///     vector: theirs::Vec3 { x, y, z },
///     reference: theirs::TriRef { mesh_id, coplanar_id, face_id },
/// }
/// ```
///
/// A type that does not fit is not taken. With a field too many:
///
/// ```compile_fail
/// #[derive(Clone, Copy)]
/// pub struct Halfedge { pub start: i32, pub end: i32, pub pair: i32, pub prop: i32, pub marked: i32 }
/// spoonferret::layout! {
///     pub struct Rows;
///     halfedge: Halfedge { start, end, pair, prop },
///     vector: spoonferret::Vec3 { x, y, z },
///     reference: spoonferret::Reference { mesh_id, coplanar_id, face_id },
/// }
/// ```
///
/// with the fields in another order:
///
/// ```compile_fail
/// #[derive(Clone, Copy)]
/// #[repr(C)]
/// pub struct Halfedge { pub end: i32, pub start: i32, pub pair: i32, pub prop: i32 }
/// spoonferret::layout! {
///     pub struct Rows;
///     halfedge: Halfedge { start, end, pair, prop },
///     vector: spoonferret::Vec3 { x, y, z },
///     reference: spoonferret::Reference { mesh_id, coplanar_id, face_id },
/// }
/// ```
///
/// with a field of another type, of the same size:
///
/// ```compile_fail
/// #[derive(Clone, Copy)]
/// #[repr(C)]
/// pub struct Halfedge { pub start: u32, pub end: i32, pub pair: i32, pub prop: i32 }
/// spoonferret::layout! {
///     pub struct Rows;
///     halfedge: Halfedge { start, end, pair, prop },
///     vector: spoonferret::Vec3 { x, y, z },
///     reference: spoonferret::Reference { mesh_id, coplanar_id, face_id },
/// }
/// ```
///
/// and with positions of single precision:
///
/// ```compile_fail
/// #[derive(Clone, Copy)]
/// #[repr(C)]
/// pub struct Point { pub x: f32, pub y: f32, pub z: f32 }
/// spoonferret::layout! {
///     pub struct Rows;
///     halfedge: spoonferret::Halfedge { start_vert, end_vert, paired_halfedge, prop_vert },
///     vector: Point { x, y, z },
///     reference: spoonferret::Reference { mesh_id, coplanar_id, face_id },
/// }
/// ```
#[macro_export]
macro_rules! layout {
    (
        $(#[$attribute:meta])*
        $visibility:vis struct $name:ident;
        halfedge: $halfedge:ty { $start:tt, $end:tt, $pair:tt, $prop:tt },
        vector: $vector:ty { $x:tt, $y:tt, $z:tt },
        reference: $reference:ty { $mesh:tt, $coplanar:tt, $face:tt } $(,)?
    ) => {
        $(#[$attribute])*
        #[derive(Clone, Copy, Debug, Default, PartialEq, Eq)]
        $visibility struct $name;

        const _: () = {
            use ::core::mem::{align_of, offset_of, size_of};
            assert!(size_of::<$halfedge>() == $crate::Halfedge::NUMBERS * size_of::<i32>(), "spoonferret: a half-edge must be its four i32 and nothing besides: 16 bytes");
            assert!(align_of::<$halfedge>() == 4, "spoonferret: a half-edge must be aligned as an i32");
            assert!(offset_of!($halfedge, $start) == 0, "spoonferret: the start of a half-edge must be its first field in memory: give it #[repr(C)]");
            assert!(offset_of!($halfedge, $end) == 4, "spoonferret: the end of a half-edge must be its second field in memory: give it #[repr(C)]");
            assert!(offset_of!($halfedge, $pair) == 8, "spoonferret: the pair of a half-edge must be its third field in memory: give it #[repr(C)]");
            assert!(offset_of!($halfedge, $prop) == 12, "spoonferret: the prop of a half-edge must be its fourth field in memory: give it #[repr(C)]");
            assert!(size_of::<$vector>() == 24, "spoonferret: a vector must be its three f64 and nothing besides: 24 bytes");
            assert!(align_of::<$vector>() == align_of::<u64>(), "spoonferret: a vector must be aligned as a u64");
            assert!(offset_of!($vector, $x) == 0, "spoonferret: the x of a vector must be its first field in memory: give it #[repr(C)]");
            assert!(offset_of!($vector, $y) == 8, "spoonferret: the y of a vector must be its second field in memory: give it #[repr(C)]");
            assert!(offset_of!($vector, $z) == 16, "spoonferret: the z of a vector must be its third field in memory: give it #[repr(C)]");
            // the fields' own types: a pointer to a field is not turned into one to another type
            let _: fn(&$halfedge) = |row| {
                $crate::fits::integer(::core::ptr::addr_of!(row.$start));
                $crate::fits::integer(::core::ptr::addr_of!(row.$end));
                $crate::fits::integer(::core::ptr::addr_of!(row.$pair));
                $crate::fits::integer(::core::ptr::addr_of!(row.$prop));
            };
            let _: fn(&$vector) = |row| {
                $crate::fits::coordinate(::core::ptr::addr_of!(row.$x));
                $crate::fits::coordinate(::core::ptr::addr_of!(row.$y));
                $crate::fits::coordinate(::core::ptr::addr_of!(row.$z));
            };
        };

        // SAFETY: the constants above hold, or this is not compiled: the named fields have these types and offsets and fill the type
        unsafe impl $crate::HalfedgeRow<$name> for $halfedge {}

        // SAFETY: as above
        unsafe impl $crate::Layout for $name {
            type Halfedge = $halfedge;
            type Vector = $vector;
            type Reference = $reference;

            fn face(reference: &$reference) -> [i32; 3] {
                [reference.$mesh, reference.$coplanar, reference.$face]
            }
        }
    };
}

layout! {
    /// The crate's own rows: [`Halfedge`](crate::Halfedge), [`Vec3`](crate::Vec3) and [`Reference`](crate::Reference).
    pub struct Own;
    halfedge: crate::Halfedge { start_vert, end_vert, paired_halfedge, prop_vert },
    vector: crate::Vec3 { x, y, z },
    reference: crate::Reference { mesh_id, coplanar_id, face_id },
}
