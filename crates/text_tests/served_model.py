"""Cursors over lists of rows that have names, for make_served: a model without files or plans."""
import itertools

CALLS = {"COUNT(*)": len, "SUM(a)": sum, "MIN(a)": lambda a: min(a, default="null"),
         "MAX(a)": lambda a: max(a, default="null"), "AVG(a)": lambda a: f"{sum(a)}/{len(a)}"}


class Query:
    """A query over rows of k, s and a: its key, if any, its calls, the least a, if any, and whether
    the greatest sums come first."""

    def __init__(self, key, calls, least=None, by_sum=False):
        self.key, self.calls, self.least, self.by_sum = key, calls, least, by_sum
        self.text = "SELECT %s FROM t%s%s%s" % (
            ", ".join(key + calls), "" if least is None else " WHERE a >= %d" % least,
            "".join(" GROUP BY " + name for name in key), " ORDER BY SUM(a) DESC" * by_sum)

    def groups(self, rows):
        """The numbers of each key."""
        groups = {} if self.key else {(): []}
        for row in rows:
            if self.least is None or row["a"] >= self.least:
                groups.setdefault(tuple(row[name] for name in self.key), []).append(row["a"])
        return groups

    def reply(self, rows):
        groups, lines = self.groups(rows), [self.key + [call.lower() for call in self.calls]]
        keys = sorted(groups, key=lambda key: (-sum(groups[key]), key) if self.by_sum else key)
        lines += [[*key, *(CALLS[call](groups[key]) for call in self.calls)] for key in keys[:10]]
        return "".join(",".join(map(str, line)) + "\n" for line in lines)


class Cursor:
    """A query, its lists of rows with their names and numbers, and how many it has answered."""

    def __init__(self, query, lists):
        self.query, self.lists, self.answered = query, lists, 0

    def rows(self, count):
        return [row for _, _, rows in self.lists[:count] for row in rows]


class Machine:
    """What lines answer: a status, and a reply or a note."""
    numbers = itertools.count()

    def __init__(self, live):
        self.live, self.cursors, self.kept = live, {}, {}

    def names(self):
        """The published names."""
        return " ".join(sorted(["table", *self.kept, *[name + ".seg" for name in self.live]]))

    def open(self, _, name, query):
        if name in self.cursors:
            return 18, "cursor taken: %s\n" % name
        self.cursors[name] = Cursor(query, [(one, *self.live[one]) for one in sorted(self.live)])
        return 0, "opened %s, %d segments\n" % (name, len(self.live))

    def step(self, _, name, count=1):
        if name not in self.cursors:
            return 19, "no cursor: %s\n" % name
        cursor = self.cursors[name]
        answered = min(cursor.answered + count, len(cursor.lists))
        if len(cursor.query.groups(cursor.rows(answered))) > 10000:
            return 14, "too many groups, limit 10000\n"
        cursor.answered = answered
        return 0, "stepped %s, %d left\n" % (name, len(cursor.lists) - answered)

    def fetch(self, line, name):
        status, note = self.step(line, name, 512)
        if status:
            return status, note
        return 0, self.cursors[name].query.reply(self.cursors[name].rows(512))

    def close(self, _, name):
        if not self.cursors.pop(name, None):
            return 19, "no cursor: %s\n" % name
        held = {number for cursor in self.cursors.values() for _, number, _ in cursor.lists}
        self.kept = {file: number for file, number in self.kept.items() if number in held}
        return 0, "closed %s\n" % name

    def build(self, _, name, csv, said="built"):
        if name in self.live:
            return 10, "name taken: %s\n" % name
        self.live[name] = next(self.numbers), csv
        return 0, "%s %s, %d rows\n" % (said, name, len(csv))

    def drop(self, line, name):
        if name not in self.live:
            return 11, "no segment: %s\n" % name
        number, _ = self.live.pop(name)
        if any(number == other for cursor in self.cursors.values()
               for _, other, _ in cursor.lists[cursor.answered:]):
            self.kept["%s.%d.kept" % (name, line)] = number
        return 0, "dropped %s\n" % name

    def replace(self, line, name, csv):
        status, note = self.drop(line, name)
        return (status, note) if status else self.build(line, name, csv, "replaced")
