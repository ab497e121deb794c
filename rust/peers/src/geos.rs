//! As much of GEOS' C interface as is needed, safe to call.

use std::ffi::{c_char, c_double, c_int, c_uint, c_void, CStr};
use std::marker::PhantomData;
use std::ptr::{null_mut, NonNull};

type Handle = *mut c_void;
type Raw = *mut c_void;

#[link(name = "geos_c")]
extern "C" {
    fn GEOS_init_r() -> Handle;
    fn GEOS_finish_r(handle: Handle);
    fn GEOSversion() -> *const c_char;
    fn GEOSCoordSeq_create_r(handle: Handle, size: c_uint, dims: c_uint) -> Raw;
    fn GEOSCoordSeq_setXY_r(handle: Handle, s: Raw, i: c_uint, x: c_double, y: c_double) -> c_int;
    fn GEOSGeom_createLineString_r(handle: Handle, s: Raw) -> Raw;
    fn GEOSGeom_createLinearRing_r(handle: Handle, s: Raw) -> Raw;
    fn GEOSGeom_createPolygon_r(handle: Handle, shell: Raw, holes: *mut Raw, n: c_uint) -> Raw;
    fn GEOSGeom_createCollection_r(handle: Handle, kind: c_int, geoms: *mut Raw, n: c_uint) -> Raw;
    fn GEOSGeom_clone_r(handle: Handle, g: *const c_void) -> Raw;
    fn GEOSGeom_destroy_r(handle: Handle, g: Raw);
    fn GEOSUnaryUnion_r(handle: Handle, g: *const c_void) -> Raw;
    fn GEOSUnaryUnionPrec_r(handle: Handle, g: *const c_void, grid: c_double) -> Raw;
    fn GEOSCoverageUnion_r(handle: Handle, g: *const c_void) -> Raw;
    fn GEOSPolygonize_r(handle: Handle, geoms: *const *const c_void, n: c_uint) -> Raw;
    fn GEOSGetNumGeometries_r(handle: Handle, g: *const c_void) -> c_int;
    fn GEOSGetGeometryN_r(handle: Handle, g: *const c_void, n: c_int) -> *const c_void;
    fn GEOSGeom_createPointFromXY_r(handle: Handle, x: c_double, y: c_double) -> Raw;
    fn GEOSContains_r(handle: Handle, a: *const c_void, b: *const c_void) -> c_char;
    fn GEOSPointOnSurface_r(handle: Handle, g: *const c_void) -> Raw;
    fn GEOSGeomGetX_r(handle: Handle, g: *const c_void, x: *mut c_double) -> c_int;
    fn GEOSGeomGetY_r(handle: Handle, g: *const c_void, y: *mut c_double) -> c_int;
    fn GEOSArea_r(handle: Handle, g: *const c_void, area: *mut c_double) -> c_int;
    fn GEOSLength_r(handle: Handle, g: *const c_void, length: *mut c_double) -> c_int;
    fn GEOSSymDifference_r(handle: Handle, a: *const c_void, b: *const c_void) -> Raw;
    fn GEOSDifference_r(handle: Handle, a: *const c_void, b: *const c_void) -> Raw;
    fn GEOSBuffer_r(handle: Handle, g: *const c_void, width: c_double, segments: c_int) -> Raw;
    fn GEOSBufferWithStyle_r(
        handle: Handle,
        g: *const c_void,
        width: c_double,
        segments: c_int,
        cap: c_int,
        join: c_int,
        mitre: c_double,
    ) -> Raw;
}

const MULTILINESTRING: c_int = 5;
const GEOMETRYCOLLECTION: c_int = 7;
const CAP_FLAT: c_int = 2;

/// The grid that polygons are brought to where they are made into one: without
/// one GEOS 3.11 now and then loses a polygon among others whose sides nearly
/// coincide.
const GRID: c_double = 1.0 / 1024.0;

/// A corner as GEOS draws it.
#[derive(Clone, Copy, Debug)]
pub enum Corner {
    Round = 1,
    Bevel = 3,
}

/// Where geometries are made.
pub struct Geos(Handle);

/// A geometry, freed when it is dropped.
pub struct Shape<'a> {
    geos: &'a Geos,
    raw: NonNull<c_void>,
    owned: PhantomData<c_void>,
}

impl Drop for Geos {
    fn drop(&mut self) {
        // SAFETY: the handle is this one's own, and no geometry outlives it
        unsafe { GEOS_finish_r(self.0) }
    }
}

impl Drop for Shape<'_> {
    fn drop(&mut self) {
        // SAFETY: the geometry is this one's own
        unsafe { GEOSGeom_destroy_r(self.geos.0, self.raw.as_ptr()) }
    }
}

// SAFETY, of every call below: handles and geometries are those that GEOS gave
// and that still stand; where a call takes a geometry over it is not dropped
// here, by `into_raw`.
impl Geos {
    pub fn new() -> Geos {
        Geos(unsafe { GEOS_init_r() })
    }

    pub fn version() -> String {
        let text = unsafe { CStr::from_ptr(GEOSversion()) };
        text.to_string_lossy().into_owned()
    }

    fn shape(&self, raw: Raw) -> Shape<'_> {
        let raw = NonNull::new(raw).expect("GEOS gives a geometry");
        let owned = PhantomData;
        Shape {
            geos: self,
            raw,
            owned,
        }
    }

    fn sequence(&self, points: &[[f64; 2]]) -> Raw {
        unsafe {
            let sequence = GEOSCoordSeq_create_r(self.0, points.len() as c_uint, 2);
            for (place, &[x, y]) in (0..).zip(points) {
                GEOSCoordSeq_setXY_r(self.0, sequence, place, x, y);
            }
            sequence
        }
    }

    pub fn line(&self, points: &[[f64; 2]]) -> Shape<'_> {
        self.shape(unsafe { GEOSGeom_createLineString_r(self.0, self.sequence(points)) })
    }

    /// A polygon, whose first point is given once.
    pub fn polygon(&self, points: &[[f64; 2]]) -> Shape<'_> {
        let mut points = points.to_vec();
        points.extend(points.first().copied());
        self.shape(unsafe {
            let ring = GEOSGeom_createLinearRing_r(self.0, self.sequence(&points));
            GEOSGeom_createPolygon_r(self.0, ring, null_mut(), 0)
        })
    }

    fn collection(&self, kind: c_int, shapes: Vec<Shape>) -> Shape<'_> {
        let mut raws: Vec<Raw> = shapes.into_iter().map(Shape::into_raw).collect();
        let count = raws.len() as c_uint;
        self.shape(unsafe { GEOSGeom_createCollection_r(self.0, kind, raws.as_mut_ptr(), count) })
    }

    pub fn lines(&self, lines: Vec<Shape>) -> Shape<'_> {
        self.collection(MULTILINESTRING, lines)
    }

    /// Faces that meet in their sides only, as one.
    pub fn merged(&self, faces: Vec<Shape>) -> Shape<'_> {
        let faces = self.collection(GEOMETRYCOLLECTION, faces);
        self.shape(unsafe { GEOSCoverageUnion_r(self.0, faces.raw()) })
    }

    /// The union of polygons.
    pub fn union(&self, polygons: Vec<Shape>) -> Shape<'_> {
        let polygons = self.collection(GEOMETRYCOLLECTION, polygons);
        self.shape(unsafe { GEOSUnaryUnionPrec_r(self.0, polygons.raw(), GRID) })
    }
}

impl<'a> Shape<'a> {
    fn into_raw(self) -> Raw {
        let raw = self.raw.as_ptr();
        std::mem::forget(self);
        raw
    }

    fn raw(&self) -> Raw {
        self.raw.as_ptr()
    }

    fn number(&self, ask: unsafe extern "C" fn(Handle, *const c_void, *mut f64) -> c_int) -> f64 {
        let mut number = 0.0;
        unsafe { ask(self.geos.0, self.raw(), &mut number) };
        number
    }

    /// Lines cut where they meet.
    pub fn united(&self) -> Shape<'a> {
        let raw = unsafe { GEOSUnaryUnion_r(self.geos.0, self.raw()) };
        self.geos.shape(raw)
    }

    /// The faces that lines which meet only in their ends enclose.
    pub fn faces(&self) -> Vec<Shape<'a>> {
        let raw = self.raw() as *const c_void;
        let faces = unsafe { GEOSPolygonize_r(self.geos.0, &raw, 1) };
        let faces = self.geos.shape(faces);
        let count = unsafe { GEOSGetNumGeometries_r(self.geos.0, faces.raw()) };
        let face = |place| unsafe {
            let face = GEOSGetGeometryN_r(self.geos.0, faces.raw(), place);
            self.geos.shape(GEOSGeom_clone_r(self.geos.0, face))
        };
        (0..count).map(face).collect()
    }

    /// A point inside.
    pub fn inside(&self) -> [f64; 2] {
        let point = unsafe { GEOSPointOnSurface_r(self.geos.0, self.raw()) };
        let point = self.geos.shape(point);
        [point.number(GEOSGeomGetX_r), point.number(GEOSGeomGetY_r)]
    }

    /// Whether a point lies inside.
    pub fn holds(&self, [x, y]: [f64; 2]) -> bool {
        let point = unsafe { GEOSGeom_createPointFromXY_r(self.geos.0, x, y) };
        let point = self.geos.shape(point);
        unsafe { GEOSContains_r(self.geos.0, self.raw(), point.raw()) == 1 }
    }

    pub fn area(&self) -> f64 {
        self.number(GEOSArea_r)
    }

    /// The length of a line, or of all boundaries of polygons.
    pub fn length(&self) -> f64 {
        self.number(GEOSLength_r)
    }

    /// This and all that lies at most so far from it.
    pub fn grown(&self, distance: f64) -> Shape<'a> {
        let raw = unsafe { GEOSBuffer_r(self.geos.0, self.raw(), distance, 16) };
        self.geos.shape(raw)
    }

    /// What does not lie in another.
    pub fn without(&self, other: &Shape) -> Shape<'a> {
        let raw = unsafe { GEOSDifference_r(self.geos.0, self.raw(), other.raw()) };
        self.geos.shape(raw)
    }

    /// What lies in one of both.
    pub fn difference(&self, other: &Shape) -> Shape<'a> {
        let raw = unsafe { GEOSSymDifference_r(self.geos.0, self.raw(), other.raw()) };
        self.geos.shape(raw)
    }

    /// The buffer of a line, its ends flat.
    pub fn buffer(&self, radius: f64, segments: i32, corner: Corner) -> Shape<'a> {
        let corner = corner as c_int;
        let raw = unsafe {
            GEOSBufferWithStyle_r(
                self.geos.0,
                self.raw(),
                radius,
                segments,
                CAP_FLAT,
                corner,
                5.0,
            )
        };
        self.geos.shape(raw)
    }
}
