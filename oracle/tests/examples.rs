//! The worked examples of document 01 hold on the original and on the model.

#[test]
fn the_worked_examples_hold() {
    assert!(oracle::examples::run());
}
