//! What the calls are made on: plain numbers, no two alike, so that an exchange of any two is seen.

/// An arc's nine fields.
#[derive(Clone, Copy, Debug)]
pub struct Drawn {
    pub center: [f64; 2],
    pub radius: f64,
    pub radius_b: f64,
    pub rotation: f64,
    pub start: f64,
    pub end: f64,
    pub closed: bool,
    pub is_ellipse: bool,
    pub ccw: bool,
}

#[derive(Clone, Copy, Debug)]
pub struct Drawing {
    pub places: [[f64; 2]; 4],
    /// Outside of `a`, and nearest to a point of its curve that is not near the start: there the search goes round a seam.
    pub far: [f64; 2],
    pub directions: [[f64; 2]; 2],
    pub a: Drawn,
    pub b: Drawn,
    pub rx: f64,
    pub ry: f64,
    pub rotation: f64,
    pub t: f64,
    pub bulge: f64,
    pub large_arc: bool,
    pub sweep: bool,
}

/// SplitMix64, from a seed.
pub struct Random(pub u64);

impl Random {
    fn bits(&mut self) -> u64 {
        self.0 = self.0.wrapping_add(0x9e37_79b9_7f4a_7c15);
        let mut z = self.0;
        z = (z ^ (z >> 30)).wrapping_mul(0xbf58_476d_1ce4_e5b9);
        z = (z ^ (z >> 27)).wrapping_mul(0x94d0_49bb_1331_11eb);
        z ^ (z >> 31)
    }

    fn mark(&mut self) -> bool {
        self.bits() >> 63 == 1
    }

    pub fn between(&mut self, low: f64, high: f64) -> f64 {
        low + (high - low) * ((self.bits() >> 11) as f64 / (1u64 << 53) as f64)
    }

    fn place(&mut self, size: f64) -> [f64; 2] {
        [self.between(-size, size), self.between(-size, size)]
    }

    /// The end is after the start in the arc's direction, or beyond it the wrong way, which no angle then lies in.
    fn drawn(&mut self) -> Drawn {
        let start = self.between(-3.0, 3.0);
        let span = self.between(1.0, 6.0);
        let ccw = self.mark();
        let forward = ccw != (self.bits() % 8 == 0);
        Drawn {
            center: self.place(6.0),
            radius: self.between(4.0, 12.0),
            radius_b: self.between(4.0, 12.0),
            rotation: self.between(-3.0, 3.0),
            start,
            end: if forward { start + span } else { start - span },
            closed: self.mark(),
            is_ellipse: self.mark(),
            ccw,
        }
    }

    /// Up the normal of the arc's curve.
    fn far_from(&mut self, a: &Drawn) -> [f64; 2] {
        let (sin, cos) = (a.start + self.between(0.5, 5.5)).sin_cos();
        let (sin_r, cos_r) = a.rotation.sin_cos();
        let up = self.between(2.0, 4.0);
        let (x, y) = (a.radius * cos + up * a.radius_b * cos, a.radius_b * sin + up * a.radius * sin);
        [a.center[0] + x * cos_r - y * sin_r, a.center[1] + x * sin_r + y * cos_r]
    }

    pub fn drawing(&mut self) -> Drawing {
        let a = self.drawn();
        Drawing {
            far: self.far_from(&a),
            a,
            places: [0; 4].map(|_| self.place(15.0)),
            directions: [0; 2].map(|_| self.place(2.0)),
            b: self.drawn(),
            rx: self.between(4.0, 12.0),
            ry: self.between(4.0, 12.0),
            rotation: self.between(-3.0, 3.0),
            t: self.between(-4.0, 4.0),
            bulge: self.between(-1.5, 1.5),
            large_arc: self.mark(),
            sweep: self.mark(),
        }
    }
}
