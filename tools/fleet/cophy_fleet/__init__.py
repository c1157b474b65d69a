"""Advises a fleet of databases on a cluster of Dask's, and shares one budget of pages among them."""
