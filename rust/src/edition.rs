/// Which rules a call goes by, where astro's are not Meeus's: precession's signs, FK4 angles, the declination from horizontal coordinates,
/// topocentric ecliptic latitude. A function without an edition goes by astro's rules.
#[derive(Clone, Copy, PartialEq, Eq, Debug)]
pub enum Edition {
    /// astro's rules, by which past files reproduce.
    Crate,
    /// Meeus's rules as published, for new files.
    Published,
}
