// SPDX-License-Identifier: MIT OR Apache-2.0
//! Builds the tree objects of an index.

use crate::raw::{self, Tree, Given};
use crate::{Error, Index, room};

impl Index {
    /// Writes the trees to `trees` and `bytes`. The inner error has the sizes that are needed, if there is less room.
    fn put_trees(&self, trees: &mut [Tree], bytes: &mut [u8]) -> Result<Result<(), Given>, Error> {
        let mut told = Given::default();
        // SAFETY: each pointer goes with the length of its slice, and what is written is apart from the rest.
        let status = unsafe {
            raw::gix_index_trees(
                self.rows.as_ptr(),
                self.rows.len(),
                self.paths.as_ptr(),
                self.paths.len(),
                self.kind.number(),
                trees.as_mut_ptr(),
                trees.len(),
                bytes.as_mut_ptr(),
                bytes.len(),
                &mut told,
            )
        };
        match status {
            raw::DONE => Ok(Ok(())),
            raw::NO_ROOM => Ok(Err(told)),
            raw::MEMORY => Err(Error::Memory),
            _ => Err(Error::of_trees(&told)),
        }
    }

    /// Returns all trees, and the bytes that they refer to.
    fn trees(&self) -> Result<(Vec<Tree>, Vec<u8>), Error> {
        if self.has_link {
            return Err(Error::Split);
        }
        let (mut trees, mut bytes) = (Vec::new(), Vec::new());
        while let Err(told) = self.put_trees(&mut trees, &mut bytes)? {
            (trees, bytes) = (room(Tree::default(), told.trees)?, room(0, told.bytes)?);
        }
        Ok((trees, bytes))
    }

    /// Calls the closure with each tree that `git write-tree` makes of the entries: its id, and its bytes, as `git
    /// cat-file tree` prints them. Returns the id of the root. Each tree follows the trees that it names, and the root
    /// is the last, so a store can take them in this order. After an error of the closure it isn't called again.
    ///
    /// The entries have to strictly increase by path, then stage. An entry with [`REMOVE`](crate::flags::REMOVE) is
    /// skipped. One with [`INTENT_TO_ADD`](crate::flags::INTENT_TO_ADD) is in no tree. Whether the objects that entries
    /// name exist isn't checked.
    ///
    /// # Errors
    ///
    /// - [`Error::Refused`] for the first entry that can't be in a tree, before the closure is called. For example, an
    ///   entry in conflict is [`Fault::Unmerged`](crate::Fault::Unmerged).
    /// - [`Error::Split`] for an index with a link, because it lacks the entries of its shared index.
    pub fn write_trees<E: From<Error>>(
        &self,
        mut put: impl FnMut(&[u8], &[u8]) -> Result<(), E>,
    ) -> Result<Vec<u8>, E> {
        let (trees, bytes) = self.trees()?;
        let id_of = |tree: &Tree| tree.id[..self.kind.len_in_bytes()].to_vec();
        for tree in &trees {
            put(&id_of(tree), &bytes[tree.start..][..tree.len])?;
        }
        Ok(trees.last().map(id_of).unwrap_or_default())
    }
}
