//! Section 3's Earth, answered by the port.
pub mod earth {
    use library::noted;

    extern "C" {
        fn brundelak_rho_sin_cos_phi(lat: f64, height: f64, first: *mut f64, second: *mut f64) -> u8;
    }

    pub fn rho_sin_cos_phi(lat: f64, height: f64) -> (f64, f64) {
        let (mut a, mut b) = (0.0, 0.0);
        let status = unsafe { brundelak_rho_sin_cos_phi(lat, height, &mut a, &mut b) };
        (noted(status, a), noted(status, b))
    }
}
