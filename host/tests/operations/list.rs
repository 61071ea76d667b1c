//! The list of an operation's stores: the document's, and the one that was made.
use crate::document_03::Stored;
use crate::run::hold;
use crate::subject::Store;

/// What was stored at once, in words where it is longer, as a memset is: each with its place.
pub fn pieces(store: &Store) -> impl Iterator<Item = (usize, &[u8])> {
    store.bytes.chunks(8).enumerate().map(|(at, word)| (store.at + 8 * at, word))
}

/// The stores that were made are those of the list. A descriptor is stored whole, by one aligned store of eight bytes; a frame is
/// cleared by any stores of zeros in it, until all its bytes are.
pub fn listed(list: &[Stored], stores: &[Store], base: u64) -> Result<(), String> {
    let mut rest = stores.iter();
    for wanted in list {
        match *wanted {
            Stored::Word { address, word } => {
                let at = (address - base) as usize;
                let store = rest.next();
                let so = store.is_some_and(|store| at % 8 == 0 && store.at == at && store.bytes == word.to_le_bytes());
                hold(so, || format!("the list has {word:x} at {address:x}, and the store is {store:x?}"))?;
            }
            Stored::Cleared { f } => {
                let mut left = vec![true; 4096];
                while left.contains(&true) {
                    let store = rest.next();
                    let part = store.filter(|store| clears(store, f as usize));
                    let part = part.ok_or_else(|| format!("the list clears frame {f}, and the store is {store:x?}"))?;
                    left[part.at % 4096..][..part.bytes.len()].fill(false);
                }
            }
        }
    }
    let more = rest.next();
    hold(more.is_none(), || format!("the list is done, and there is a store {more:x?}"))
}

/// A store of zeros in a frame.
fn clears(store: &Store, f: usize) -> bool {
    let inside = store.at / 4096 == f && store.at % 4096 + store.bytes.len() <= 4096;
    inside && !store.bytes.is_empty() && store.bytes.iter().all(|byte| *byte == 0)
}
