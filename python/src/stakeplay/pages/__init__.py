"""One file that shows a run: what is read of it, how it is thinned, and the document that a browser opens."""
