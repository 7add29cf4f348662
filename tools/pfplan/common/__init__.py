"""What every part of pfplan uses: errors, figures, files that are read and written, and the programs of the
repository."""
