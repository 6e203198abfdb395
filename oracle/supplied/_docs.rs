// The crate's pages of text cannot be had, and nothing of it runs.
