"""Decodes an archive of a chain's values on many processes and machines, by Dask's `distributed`.

    python -m scaleview.archive METADATA NAME INPUT.. --out DIR

The command is all that this package has. It is the only part of scaleview that needs `distributed`,
which it imports to start a run. `docs/ARCHIVE.md` describes it.
"""
