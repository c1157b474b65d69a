"""The changes that a statement may need, each with what it means for the costs."""
from __future__ import annotations

from dataclasses import dataclass

from cophy_pg.rewrite.options import word_of


@dataclass(frozen=True)
class Change:
    """A kind of change, and the option that makes it where one does. `effect` is `same` where the model has no notion that tells both forms apart, `near` where it
    would price them differently, and `less` where a part of the work isn't priced."""

    name: str
    effect: str
    text: str
    option: str = ""

    def shown(self) -> str:
        """The text, with the word that turns it off."""
        return f"{self.text} ({word_of(self.option)} turns this off)" if self.option else self.text


_TABLE = """
value|same|a cast, a call or arithmetic of constants is a value: the literal where it is one, else ?
boolean|same|a test of a boolean column is c = ?
column cast|same|a cast that changes no value is left out
schema|same|the schema of a name is left out
partition|near|a partition stands for its whole table
view|same|a view is replaced by its query
using|same|USING and NATURAL are written as ON
negation|same|NOT is drawn inwards
not in|same|NOT IN a list is a chain of <>
row|same|a comparison of rows is one of their columns
distinct from|near|IS [NOT] DISTINCT FROM is = or <>
symmetric|same|BETWEEN SYMMETRIC is BETWEEN
any array|near|= ANY of an array is IN; an array that isn't known counts as 10 items
or of one column|same|OR over one column is IN
or|near|OR of several columns: what all sides share is kept, else the columns stay needed
common condition|same|a condition that all sides of an OR share is drawn out
not|near|NOT LIKE and other tests that match nothing: the columns stay needed
function of a column|near|a function of one column compared with a value is c LIKE ?
pattern|same|ILIKE, SIMILAR TO and ~ are LIKE
columns compared|near|a test over several columns: the columns stay needed
join through a function|near|a join through a function or a cast is an equality of the columns
constant condition|same|a condition without a column is left out
outer join|near|an outer join is an inner one
cross join|same|CROSS JOIN is written with a comma
split|less|sources that no equality connects are statements of their own
subquery|near|a subquery that joins is joined
own statement|less|a subquery that groups, limits or stands for a value is a statement of its own
outer column|same|a column of an outer query is ?
common table|near|WITH: a query that joins is joined, another is a statement of its own
set operation|less|each side of UNION, INTERSECT and EXCEPT is a statement of its own
function source|less|a function or VALUES in FROM is left out
sample|near|TABLESAMPLE is left out
expression|same|CASE, an operator or another form in a list is its columns
syntax|same|a call with words between its arguments is written with commas
aggregate|same|an aggregate that isn't read is count of its columns
filter|same|FILTER, WITHIN GROUP and ORDER BY of an aggregate are its columns
window|less|a window is its columns: its sort isn't priced
distinct on|less|DISTINCT ON is its columns: its sort is that of ORDER BY
group|near|GROUP BY an expression, an ordinal or an alias is its columns
grouping sets|near|GROUPING SETS, ROLLUP and CUBE group by their columns
having|same|a test of HAVING is its columns
nulls|same|NULLS FIRST and LAST are left out
order using|near|ORDER BY .. USING is ORDER BY
fetch|same|FETCH FIRST is LIMIT
limit|same|a LIMIT or an OFFSET that isn't a number is ?, or left out
lock|same|FOR UPDATE and FOR SHARE are left out
system column|near|ctid, xmin and their like are left out
returning|same|RETURNING is left out
on conflict|less|ON CONFLICT is left out: an update that it makes isn't priced
default|same|DEFAULT is ?
insert select|near|INSERT .. SELECT is a statement for the query and INSERTs of as many rows as a call wrote
copy|near|COPY into a table is INSERTs of as many rows as a call wrote, COPY out of one is its query
update from|near|a join of UPDATE or DELETE is a statement of its own, and its column is looked up for the rows of a call
inner statement|same|a statement within DECLARE, PREPARE or CREATE TABLE AS stands for itself
source dropped|near|of more than 8 sources small ones that hang on one other are left out
range end|same|the model counts a range from above its low end up to its high one: c < 5 is c <= 4, BETWEEN 5 AND 9 is BETWEEN 4 AND 9
bounds|near|a lower and an upper bound of a column are one BETWEEN
parameter range|near|a range of parameters is a literal range of 0.5 % of the column, as PostgreSQL's generic plan takes it|ranges
rows of a call|near|a range of parameters is a literal range that holds as many rows as a call gave or changed, an array that isn't known has as many items as find these|rows
limit range|near|ORDER BY with LIMIT is a literal range of its first column that holds as many rows as are left|limits
looked up|near|a column that a nested loop would look up is IN as many items as the outer side has rows|look_ups
correlated|near|a correlated subquery counts once for each row outside it|look_ups
delete|near|a DELETE is a SELECT of the rows that it finds, since it touches no index|deletes
insert share|near|an INSERT counts a quarter, as its upkeep was measured|insert_share
no index|near|a column that no index can have: a test of it is LIKE, no list to join, group or order by has it, no index covers it
alias|same|an alias that a workload can't have gets another name
"""

CHANGES = {it.name: it for it in (Change(*line.split("|")) for line in _TABLE.strip().splitlines())}
