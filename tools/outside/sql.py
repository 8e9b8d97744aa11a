"""The SQL of a rule file: tables without keys, the same with keys, views, and what is asked of them.

Relation i is r<i>, with columns c0, c1 and so on; all numbers are bigint. From item i is f<i>, also that of an exists. A
table stands there twice: as r<i>, which takes any rows and is what the views are over, and as kept<i>, with its ranges,
primary key and foreign keys, so that PostgreSQL itself accepts or refuses the rows.

Where SQL and document 01 differ: an aggregate over nothing. "A group has at least one member, also with no grouping
columns"; SQL gives one row there. The views and their negations ask for count(*) > 0 in that case, and their twins, plain<i>
and plain_not<i>, do not, so that the check can say how often it mattered.
"""

# A view that PostgreSQL would unfold into more than so many parts is a materialized one, refreshed for each database.
UNFOLDED = 400
NEGATIONS = ((True, False), (False, True), (True, True))

OPENING = """\\set QUIET on
BEGIN;
CREATE SCHEMA checked;
SET search_path = checked;
CREATE FUNCTION nearest(step bigint, x bigint) RETURNS bigint LANGUAGE sql IMMUTABLE AS
    'SELECT round(x::numeric / step)::bigint * step';
"""

# Constraints wait until all tables are filled. They are told so each time, since rolling back to a savepoint does not undo
# the IMMEDIATE of a block that ended well within it.
ACCEPTS = """CREATE FUNCTION accepts() RETURNS text LANGUAGE plpgsql AS $$ BEGIN
    SET CONSTRAINTS ALL DEFERRED;
    {inserts}
    SET CONSTRAINTS ALL IMMEDIATE;
    RETURN 'valid';
EXCEPTION
    WHEN check_violation THEN RETURN 'range';
    WHEN unique_violation THEN RETURN 'key';
    WHEN foreign_key_violation THEN RETURN 'foreign-key';
END $$;
"""


def expression(e, items):
    """The SQL of an expression where so many from items are open."""
    token = e[0]
    if token == 0:
        return f"({e[1]})::bigint"
    if token == 1:
        return f"f{e[1]}.c{e[2]}"
    if token in (2, 3, 4):
        return f"({expression(e[1], items)} {'+-*'[token - 2]} {expression(e[2], items)})"
    if token == 5:
        return f"nearest({e[1]}, {expression(e[2], items)})"
    if token == 6:
        first, second = expression(e[2], items), expression(e[3], items)
        return f"CASE WHEN {condition(e[1], items)} THEN {first} ELSE {second} END"
    return f"{('count', 'sum', 'min', 'max')[e[1]]}({expression(e[2], items)})::bigint"


def condition(c, items):
    """The SQL of a condition where so many from items are open; an exists opens one more."""
    token = c[0]
    if token == 0x10:
        return "true"
    if token in (0x11, 0x12, 0x13):
        return f"({expression(c[1], items)} {('=', '<', '<=')[token - 0x11]} {expression(c[2], items)})"
    if token == 0x14:
        return f"(NOT {condition(c[1], items)})"
    if token == 0x17:
        return f"EXISTS (SELECT 1 FROM r{c[1]} AS f{items} WHERE {condition(c[2], items + 1)})"
    return f"({condition(c[1], items)} {('AND', 'OR')[token - 0x15]} {condition(c[2], items)})"


def parts(e):
    """The expression or condition and all within it."""
    yield e
    for part in e[1:]:
        if isinstance(part, tuple):
            yield from parts(part)


def names(count):
    return ", ".join(f"c{column}" for column in range(count))


def negated(c, items, no):
    return f"NOT ({condition(c, items)})" if no else condition(c, items)


def over_nothing(view):
    """Whether SQL would give a row for no kept combination."""
    return view.kind == "aggregate" and not view.grouping


def select(view, not_where=False, not_having=False, members=True):
    """The query of a basic or an aggregate view, its conditions negated as told."""
    items = len(view.sources)
    columns = ", ".join(f"{expression(e, items)} AS c{at}" for at, e in enumerate(view.select))
    sources = ", ".join(f"r{relation} f{at}" for at, relation in enumerate(view.sources))
    query = f"SELECT {columns} FROM {sources} WHERE {negated(view.where, items, not_where)}"
    if view.kind == "basic":
        return query
    grouping = ", ".join(f"f{item}.c{column}" for item, column in view.grouping) or "()"
    least = "count(*) > 0 AND " if members and over_nothing(view) else ""
    return f"{query} GROUP BY {grouping} HAVING {least}({negated(view.having, items, not_having)})"


def query_of(view):
    if view.kind in ("union", "intersection"):
        word = {"union": "UNION ALL", "intersection": "INTERSECT ALL"}[view.kind]
        return f"SELECT * FROM r{view.left} {word} SELECT * FROM r{view.right}"
    return select(view)


def negations(view):
    """(not where, not having) of each query that shows the view negative."""
    if view.kind == "aggregate":
        return NEGATIONS
    return ((True, False),) if view.kind == "basic" else ()


def used(e, items):
    """The relation of each column and each exists in an expression or condition, the open from items being these."""
    if e[0] == 1:
        return [items[e[1]]]
    opened = [e[1]] if e[0] == 0x17 else []
    inner = [part for part in e[1:] if isinstance(part, tuple)]
    return opened + [relation for part in inner for relation in used(part, [*items, *opened])]


def weight(view, weights):
    """How many parts the view has when the views below are unfolded into it, roughly."""
    if view.kind in ("union", "intersection"):
        return 1 + weights[view.left] + weights[view.right]
    trees = [view.where, view.having, *view.select]
    named = [relation for tree in trees for relation in used(tree, view.sources)]
    return 1 + sum(weights[relation] for relation in [*view.sources, *named])


def materialized(file):
    """The views that would unfold into too much."""
    weights = [1] * len(file.tables)
    chosen = set()
    for relation, view in file.views():
        weights.append(weight(view, weights))
        if weights[relation] > UNFOLDED:
            weights[relation] = 1
            chosen.add(relation)
    return chosen


def create_table(number, table):
    columns = ", ".join(f"c{column} bigint NOT NULL" for column in range(table.width()))
    checks = [f"CHECK (c{at} BETWEEN {lo} AND {hi})" for at, (lo, hi) in enumerate(table.ranges)]
    key = [f"PRIMARY KEY ({', '.join(f'c{at}' for at in table.key)})"] if table.key else []
    kept = ", ".join([columns, *checks, *key])
    return f"CREATE TABLE r{number} ({columns});\nCREATE TABLE kept{number} ({kept});\n"


def add_foreign_key(key):
    child = ", ".join(f"c{pair[0]}" for pair in key.pairs)
    parent = ", ".join(f"c{pair[1]}" for pair in key.pairs)
    return (
        f"ALTER TABLE kept{key.child} ADD FOREIGN KEY ({child}) REFERENCES kept{key.parent} ({parent})"
        " DEFERRABLE INITIALLY DEFERRED;\n"
    )


def create_plain(relation, view):
    """The view and its negations as SQL has them over nothing."""
    script = f"CREATE VIEW plain{relation} AS {select(view, members=False)};\n"
    for at, signs in enumerate(NEGATIONS):
        script += f"CREATE VIEW plain_not{relation}_{at} AS {select(view, *signs, members=False)};\n"
    return script


def create_views(file):
    script = ""
    for relation, view in file.views():
        kind = "MATERIALIZED VIEW" if relation in materialized(file) else "VIEW"
        script += f"CREATE {kind} r{relation} AS {query_of(view)};\n"
        for at, signs in enumerate(negations(view)):
            script += f"CREATE VIEW not{relation}_{at} AS {select(view, *signs)};\n"
        if over_nothing(view):
            script += create_plain(relation, view)
    return script


def create(file):
    """All that one rule file needs."""
    script = OPENING + "".join(create_table(at, table) for at, table in enumerate(file.tables))
    script += "".join(add_foreign_key(key) for key in file.foreign_keys)
    inserts = [f"INSERT INTO kept{at} SELECT * FROM r{at};" for at in range(len(file.tables))]
    return script + ACCEPTS.format(inserts="\n    ".join(inserts)) + create_views(file)


def fill(number, rows):
    values = ", ".join(str(row).replace(",)", ")") for row in rows)
    insert = f"INSERT INTO r{number} VALUES {values};\n" if rows else ""
    return f"DELETE FROM r{number};\n{insert}"


def ask_plain(relation, view):
    script = f"SELECT 'plain', {relation}, {names(view.width())} FROM plain{relation};\n"
    for at in range(len(NEGATIONS)):
        script += f"SELECT 'plain_negative', {relation} FROM plain_not{relation}_{at};\n"
    return script


def ask(file, database, k):
    """Loads a database and asks for its validity, every view's rows, and what shows a view negative."""
    script = f"SELECT 'database', {k};\n" + "".join(fill(at, rows) for at, rows in enumerate(database))
    script += "SAVEPOINT before;\nSELECT 'accepts', accepts();\nROLLBACK TO before;\n"
    script += "".join(f"REFRESH MATERIALIZED VIEW r{relation};\n" for relation in sorted(materialized(file)))
    for relation, view in file.views():
        script += f"SELECT 'row', {relation}, {names(view.width())} FROM r{relation};\n"
        for at in range(len(negations(view))):
            script += f"SELECT 'negative', {relation} FROM not{relation}_{at};\n"
        if over_nothing(view):
            script += ask_plain(relation, view)
    return script


def script(file, databases):
    """The whole script for (k, tables) of some databases; nothing of it stays."""
    return create(file) + "".join(ask(file, tables, k) for k, tables in databases) + "ROLLBACK;\n"
