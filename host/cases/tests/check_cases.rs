//! What the program crates/check_cases is held to is what the model makes of its input.

#[test]
fn the_program_is_held_to_the_model() {
    let input = include_str!("../../../crates/check_cases/stdin");
    let wanted = include_str!("../../../crates/check_cases/stdout");
    assert!(input.len() <= 262_144, "the program reads so many bytes");
    for (place, (model, wanted)) in cases::lines::expected(input).lines().zip(wanted.lines()).enumerate() {
        assert_eq!(model, wanted, "line {}", place + 1);
    }
    assert_eq!(cases::lines::expected(input).lines().count(), wanted.lines().count());
}
