"""What tools/package.py does: one module for each kind of package, and for what all have."""
