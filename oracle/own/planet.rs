//! Section 3's Earth.
pub mod earth {
    pub fn rho_sin_cos_phi(lat: f64, height: f64) -> (f64, f64) {
        let u = (0.99664719 * lat.tan()).atan2(1.0);
        let h = height / 6378140.0;
        (
            0.99664719 * u.sin() + h * lat.sin(),
            u.cos() + h * lat.cos(),
        )
    }
}
