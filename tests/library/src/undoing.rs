//! Whether memory is valid, as an undo on it says: 3 exactly when no text and accepted renames leave it.

use crate::{undo, valid, Card, Tables};

/// One undo on a copy. Is the memory valid?
pub fn check(tables: &Tables, card: Card, what: &str) -> bool {
    let valid = valid(tables, card);
    let (mut copy, mut left) = (tables.clone(), card);
    let answer = undo(&mut copy, &mut left);
    assert_eq!(answer.place, 0, "{what}");
    assert_eq!(answer.number != 3, valid, "{what}");
    if valid {
        let expected = if card.renames == 0 { 13 } else { 0 };
        assert_eq!(answer.number, expected, "{what}");
    } else {
        assert!(copy == *tables && left == card, "{what}");
    }
    valid
}
