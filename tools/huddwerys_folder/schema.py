"""The statements of docs/SQL.md that make the tables and projections of a catalogue again, in an order that works over an empty folder."""
from datetime import date


def column_sql(column):
    kind = f'VARCHAR({column.length})' if column.kind == 'VARCHAR' else column.kind
    return f'{column.name} {kind}' + (' NOT NULL' if column.is_not_null else '')


def table_sql(table):
    return f"CREATE TABLE {table.name} ({', '.join(map(column_sql, table.columns))})"


def names_of(table, projection):
    return [table.columns[it.place].name for it in projection.columns]


def projection_sql(table, projection):
    names = names_of(table, projection)
    columns = [name if it.encoding == 'AUTO' else f'{name} ENCODING {it.encoding}' for name, it in zip(names, projection.columns)]
    order = ', '.join(names[place] for place in projection.sort)
    return f"CREATE PROJECTION {projection.name} ({', '.join(columns)}) AS SELECT {', '.join(names)} FROM {table.name} ORDER BY {order}"


def comes_with(table, projection):
    """CREATE TABLE makes this projection: all columns in order, AUTO, sorted by them."""
    places = list(range(len(table.columns)))
    return (
        projection.name == f'{table.name}_super'
        and [it.place for it in projection.columns] == projection.sort == places
        and all(it.encoding == 'AUTO' for it in projection.columns)
    )


def creating(tables):
    """The statements, each with the projection that it makes, or None.

    CREATE TABLE t makes t_super. Where the table has no such projection it is dropped, for which another one has to have all columns: one of
    the table's own if its name is in no other table's way, else one that stands in until the table has its own. A table y comes
    before a table y_super, and no projection is made before the last table that stands in none's way.
    """
    taken = {f'{table.name}_super' for table in tables}
    taken.update(it.name for table in tables for it in [table, *table.projections])
    made, standing_in = set(), {}
    for table in sorted(tables, key=lambda table: (len(table.name), table.name)):
        yield table_sql(table), None
        first = next((it for it in table.projections if comes_with(table, it)), None)
        if first is None:
            first = next((it for it in table.projections if it.has_all_columns(table) and not is_in_the_way(it, tables)), None)
            if first:
                yield projection_sql(table, first), first
            else:
                name = free_name(taken)
                standing_in[table.name] = name
                columns = ', '.join(column.name for column in table.columns)
                yield f'CREATE PROJECTION {name} ({columns}) AS SELECT {columns} FROM {table.name}', None
            yield f'DROP PROJECTION {table.name}_super', None
        made.add(id(first))
    for table in tables:
        for projection in sorted(table.projections, key=lambda it: not it.has_all_columns(table)):
            if id(projection) in made:
                continue
            yield projection_sql(table, projection), projection
            if table.name in standing_in:
                yield f'DROP PROJECTION {standing_in.pop(table.name)}', None


def is_in_the_way(projection, tables):
    return any(projection.name == f'{table.name}_super' for table in tables)


def free_name(taken):
    name = next(name for name in (f'stand_in_{k}' for k in range(1, len(taken) + 2)) if name not in taken)
    taken.add(name)
    return name


def literal(value):
    """A value as a script writes it."""
    if value is None:
        return b'NULL'
    if isinstance(value, bytes):
        return b"'" + value.replace(b"'", b"''") + b"'"
    if isinstance(value, bool):
        return b'TRUE' if value else b'FALSE'
    if isinstance(value, date):
        return b"DATE '%s'" % value.isoformat().encode()
    return b'%d' % value


def declared(column):
    """The encoding of a projection's column, and its default if it has one."""
    return column.encoding + (f", default {ascii(literal(column.default).decode())[1:-1]}" if column.has_default else '')
