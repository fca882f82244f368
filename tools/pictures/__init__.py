"""Pictures of listings as SVG, one module for each kind of rank."""
