"""Why inputs are refused, and by which rule."""
import runs  # noqa: F401  with it the modules of bin can be imported
