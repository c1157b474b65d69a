"""Rewrites statements of PostgreSQL into the grammar of a workload, and tells what it changed."""
from cophy_pg.rewrite.changes import CHANGES, Change
from cophy_pg.rewrite.options import Options
from cophy_pg.rewrite.rewriter import Rewriter, Rewritten

__all__ = ["CHANGES", "Change", "Options", "Rewriter", "Rewritten"]
