//! Refusals by their numbers and in words.
use brundelak::{coords, Refusal};

#[test]
fn every_number_comes_back() {
    assert_eq!(Refusal::from_number(0), None);
    for number in 1..=255 {
        assert_eq!(Refusal::from_number(number).map(Refusal::number), Some(number));
    }
}

#[test]
fn the_numbers_of_the_table_have_names_and_sentences_of_their_own() {
    let mut sentences: Vec<&str> = (1..=Refusal::HIGHEST).map(|n| Refusal::from_number(n).unwrap().sentence()).collect();
    let unnamed = Refusal::Other(Refusal::HIGHEST + 1).sentence();
    assert!((1..=Refusal::HIGHEST).all(|n| Refusal::from_number(n) != Some(Refusal::Other(n))));
    assert!((Refusal::HIGHEST + 1..=255).all(|n| Refusal::from_number(n) == Some(Refusal::Other(n))));
    assert!(!sentences.contains(&unnamed));
    sentences.sort();
    sentences.dedup();
    assert_eq!(sentences.len(), usize::from(Refusal::HIGHEST));
}

#[test]
fn a_refusal_says_its_number_and_its_sentence() {
    let steep = coords::az_frm_eq(0.5, 1.5705, 0.9).unwrap_err();
    assert_eq!(steep, Refusal::Steep);
    assert_eq!(steep.to_string(), format!("refused by 4: {}", steep.sentence()));
}

#[test]
fn the_archive_is_of_the_crates_version() {
    let (major, minor, patch) = brundelak::version();
    assert!(include_str!("../Cargo.toml").contains(&format!("\nversion = \"{}.{}.{}\"\n", major, minor, patch)));
}
