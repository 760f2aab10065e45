//! The verifier that `decode` keeps for a key.

use crate::errors::Result;
use crate::{DecodingKey, Validation, Verifier};
use std::sync::{Arc, PoisonError, RwLock};

/// The verifier of the last call with a key. The clones of the key share it.
#[derive(Clone, Default)]
pub struct Kept(Arc<RwLock<Option<Arc<Verifier>>>>);

impl Kept {
    /// Returns the verifier of the key that has this, and conditions. One is made, unless the call before had the same conditions.
    pub fn verifier(&self, key: &DecodingKey, validation: &Validation) -> Result<Arc<Verifier>> {
        let last = self.0.read().unwrap_or_else(PoisonError::into_inner).clone();
        if let Some(known) = last.filter(|it| it.validations[0] == *validation) {
            return Ok(known);
        }
        let made = Arc::new(Verifier::made(key.keys()?, validation, 0, 0)?);
        let before = self.0.write().unwrap_or_else(PoisonError::into_inner).replace(Arc::clone(&made));
        drop(before); // without the lock
        Ok(made)
    }
}

#[cfg(test)]
mod tests {
    use super::Kept;
    use crate::{Algorithm, DecodingKey, Validation};
    use std::sync::Arc;

    /// One verifier is kept until a call has other conditions. An error is not kept.
    #[test]
    fn one_verifier_is_kept() {
        let (kept, ours) = (Kept::default(), Validation::default());
        let key = DecodingKey::from_secret(b"0123456789abcdef0123456789abcdef");
        let made = |validation: &Validation| kept.clone().verifier(&key, validation).unwrap();
        for other in [Validation::new(Algorithm::HS384), Validation::strict(Algorithm::HS256)] {
            let first = made(&ours);
            assert!(kept.verifier(&key, &Validation { sub: Some(String::new()), ..ours.clone() }).is_err());
            assert!(Arc::ptr_eq(&made(&ours.clone()), &first) && !Arc::ptr_eq(&made(&other), &first));
        }
    }
}
