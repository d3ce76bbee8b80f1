//! Names in plain letters, for devices that print only letters, digits and underlines.

use crate::lent::{self, NAME, PLAIN_FORM};
use crate::refusal::{answer, Refusal};

/// The plain form of a name: `\` becomes p, `$` becomes a, each later letter or digit is kept, each other byte becomes `_` and two hex digits. Different names have
/// different forms. Refused: [`Refusal::BadToken`] (no name).
///
/// ```
/// use skytassel::{name_of, plain_form, Refusal};
///
/// assert_eq!(plain_form("\\é".as_bytes()), Ok(b"p_c3_a9".to_vec()));
/// assert_eq!(name_of(b"p_c3_a9"), Ok("\\é".as_bytes().to_vec()));
/// assert_eq!(name_of(b"p_41"), Err(Refusal::NoPlainForm));
/// ```
pub fn plain_form(name: &[u8]) -> Result<Vec<u8>, Refusal> {
    let mut form = vec![0; PLAIN_FORM];
    let given = lent::plain_form(name, &mut form);
    form.truncate(given.length as usize);
    answer(given.number, form)
}

/// The name that has this plain form. Refused: [`Refusal::NoPlainForm`], whatever the bytes are.
pub fn name_of(form: &[u8]) -> Result<Vec<u8>, Refusal> {
    let mut name = vec![0; NAME];
    let given = lent::name_of(form, &mut name);
    name.truncate(given.length as usize);
    answer(given.number, name)
}
