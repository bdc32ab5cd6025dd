// What the Rust's two kinds of maps can be asked.
use interpn::multibspline::rectilinear::MultiBsplineRectilinear;
use interpn::multibspline::regular::MultiBsplineRegular;

pub trait Asked<const N: usize> {
    fn value(&self, x: [f64; N]) -> Result<f64, &'static str>;
    fn gradient(&self, x: [f64; N]) -> Result<[f64; N], &'static str>;
    fn values(&self, x: &[&[f64]; N], out: &mut [f64]) -> Result<(), &'static str>;
    fn gradients(&self, x: &[&[f64]; N], out: &mut [&mut [f64]; N]) -> Result<(), &'static str>;
}

macro_rules! asked {
    ($map:ident) => {
        impl<const N: usize> Asked<N> for $map<'_, f64, N> {
            fn value(&self, x: [f64; N]) -> Result<f64, &'static str> {
                self.interp_one(x)
            }
            fn gradient(&self, x: [f64; N]) -> Result<[f64; N], &'static str> {
                self.interp_one_grad(x)
            }
            fn values(&self, x: &[&[f64]; N], out: &mut [f64]) -> Result<(), &'static str> {
                self.interp(x, out)
            }
            fn gradients(&self, x: &[&[f64]; N], out: &mut [&mut [f64]; N]) -> Result<(), &'static str> {
                self.interp_grad(x, out)
            }
        }
    };
}

asked!(MultiBsplineRegular);
asked!(MultiBsplineRectilinear);
