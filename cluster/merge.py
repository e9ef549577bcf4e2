#!/usr/bin/env python3
"""Merges the answers of many stores into that of one store with all their rows.

merge.py part SQL STORE...               checks query and stores; prints what to ask each store
merge.py answer SQL STORE ANSWER.csv...  prints the merged answer; STORE has the columns' types

A store is asked without HAVING, ORDER BY and LIMIT, and also for what is only grouped, tested or
ordered by. SQLite groups, tests, orders and cuts; sums, which have more than 64 bits, and averages,
sum/count, are texts to it. What this file does not know of a query it refuses, even where the
program accepts it."""
import csv
import io
import json
import os
import re
import sqlite3
import subprocess
import sys

TOKEN = re.compile(r"""'(?:[^']|'')*'|"(?:[^"]|"")*"|-?[\w$]+|\S""", re.ASCII)
CONDITION = set("WHERE AND OR NOT IN BETWEEN ( ) , = < > !".split())
FOLDS = {"": "%s", "count": "sum(%s)", "min": "min(%s)", "max": "max(%s)",
         "sum": "total_of(%s)", "avg": "total_of(%s)"}


class Query:
    """A query that the program accepts. A term is a function, "" for a column alone, and a column;
    `terms` are those that it shows, and then those that it only groups, tests or orders by."""

    def __init__(self, sql, types):
        self.tokens = [(found[0], found.start()) for found in TOKEN.finditer(sql)]
        self.tokens.append(("", len(sql)))
        while self.takes("SET"):
            del self.tokens[:4]
        self.must(self.takes("SELECT"))
        items = self.several(lambda: (self.term(), self.takes("AS") and self.name()))
        begin = self.tokens[0][1]
        self.must(self.takes("FROM") and self.name())
        while self.tokens[0][0].upper() not in ("GROUP", "ORDER", "LIMIT", ";", ""):
            text = self.tokens.pop(0)[0]
            self.must(text.upper() in CONDITION or text[0] in "'-0123456789"
                      or text.strip('"') in types, text)
        self.keys = self.several(self.term) if self.takes("GROUP", "BY") else []
        end = self.tokens[0][1]
        self.having = list(self.tests()) if self.keys and self.takes("HAVING") else []
        order = self.several(lambda: (self.term(), self.takes("DESC") or self.takes("ASC"))) \
            if self.takes("ORDER", "BY") else []
        self.limit = int(self.tokens.pop(0)[0]) if self.takes("LIMIT") else 10
        self.offset = int(self.tokens.pop(0)[0]) if self.takes("OFFSET") else 0
        self.takes(";")
        self.must(self.tokens[0][0] == "")
        called = {("", name): term for term, name in reversed(items) if name}  # the first counts
        self.order = [(called.get(term, term), way) for term, way in order]
        shown = [term for term, _ in items]
        tested = [test[0] for test in self.having if not isinstance(test, str)]
        hidden = dict.fromkeys(self.keys + tested + [term for term, _ in self.order])
        hidden = [term for term in hidden if term not in shown]
        self.shown, self.terms = len(shown), shown + hidden
        asked = "".join(', %s("%s")' % term if term[0] else ', "%s"' % term[1] for term in hidden)
        self.part = "%s%s %s LIMIT 100000" % (  # so many groups a store has at most
            sql[:begin].rstrip(), asked.replace('"*"', "*"), sql[begin:end].rstrip())

    def must(self, right, text=None):
        if not right:
            sys.exit("cannot be merged: " + (text or self.tokens[0][0] or "the end"))

    def takes(self, *words):
        """The first of these words, which is read with the others, or "" if they are not next."""
        there = [text.upper() for text, _ in self.tokens[:len(words)]] == list(words)
        del self.tokens[:len(words) * there]
        return words[0] * there

    def several(self, one):
        found = [one()]
        while self.takes(","):
            found.append(one())
        return found

    def name(self):
        self.must(re.match(r'["\w$]', self.tokens[0][0]))
        text = self.tokens.pop(0)[0]
        return text[1:-1].replace('""', '"') if text[0] == '"' else text

    def term(self):
        name = self.name()
        if not self.takes("("):
            return "", name
        self.must(name.lower() in FOLDS, name)
        column = self.takes("*") or self.name()
        self.must(self.takes(")"))
        return name.lower(), column

    def tests(self):
        """HAVING, piece by piece: a word, or a term, a sign and a literal."""
        while self.tokens[0][0].upper() not in ("ORDER", "LIMIT", ";", ""):
            word = self.takes("NOT") or self.takes("AND") or self.takes("OR") \
                or self.takes("(") or self.takes(")")
            yield word or (self.term(), self.sign(), self.literal())

    def sign(self):
        text = ""
        while self.tokens[0][0] and self.tokens[0][0] in "<>=!":
            text += self.tokens.pop(0)[0]
        self.must(text)
        return text

    def literal(self):
        self.must(re.match(r"'|-?\d", self.tokens[0][0]))
        text = self.tokens.pop(0)[0]
        return text[1:-1].replace("''", "'") if text[0] == "'" else int(text)


class Total:
    """The sum of sums, or of averages, sum by sum and count by count."""
    totals = 0, 0

    def step(self, text):
        self.totals = [int(one) + so_far for one, so_far in zip(text.split("/"), self.totals)]

    def finalize(self):
        return "/".join(map(str, self.totals))


def by_number(a, b):
    """The order of sums and averages: that of fractions."""
    (x, _, p), (y, _, q) = a.partition("/"), b.partition("/")
    more = int(x) * int(q or 1) - int(y) * int(p or 1)
    return (more > 0) - (more < 0)


def types_of(store):
    """The columns' types, of the schema, which a store's file `table` has first (FORMATS.md)."""
    with open(os.path.join(store, "table"), "rb") as file:
        table = file.read()
    schema = json.loads(table[12:12 + int.from_bytes(table[8:12], "big")])
    return {field["name"]: field["dataType"] for key, fields in schema.items()
            if key.endswith("FieldSpecs") for field in fields or []}


def check(sql, stores, pinot):
    """What to ask each store. Ends here as the program does if it refuses the query, and where rows
    would count twice."""
    explained = subprocess.run([pinot, stores[0], "explain", sql], capture_output=True, check=False)
    sys.stderr.write(explained.stderr.decode())
    if explained.returncode:
        sys.exit(explained.returncode)
    for store in stores:
        if not os.path.exists(os.path.join(store, "table")):
            sys.exit("no table: " + store)
        if types_of(store) != types_of(stores[0]):
            sys.exit("cannot be merged: %s has another schema than %s" % (store, stores[0]))
    names = sorted(name for store in stores for name in os.listdir(store) if name.endswith(".seg"))
    twice = sorted({name for name, other in zip(names, names[1:]) if name == other})
    if twice:
        sys.exit("cannot be merged: %s and %d more in two stores" % (twice[0], len(twice) - 1))
    return Query(sql, types_of(stores[0])).part


def merge(sql, store, answers):
    """The merged answer of the texts that the stores answered."""
    types = types_of(store)
    query = Query(sql, types)
    totals = [term[0] in ("sum", "avg") for term in query.terms]
    texts = [total or not term[0] and types[term[1]] == "STRING"
             for term, total in zip(query.terms, totals)]
    at = {term: query.terms.index(term) for term in query.terms}
    folded = {term: FOLDS[term[0]] % "c%d" % at[term] for term in query.terms}
    keys = ["c%d" % at[key] for key in query.keys]
    compared = {term: folded[term] + " COLLATE by_number" * totals[at[term]] for term in query.terms}
    order = [compared[term] + " " + way for term, way in query.order] + keys
    having, literals = "", []
    for test in query.having:
        if isinstance(test, str):
            having += " %s " % test
        else:
            term, sign, literal = test
            having += "(%s %s ?)" % (compared[term], sign)
            literals.append(str(literal) if totals[at[term]] else literal)
    db = sqlite3.connect(":memory:")
    db.create_aggregate("total_of", 1, Total)
    db.create_collation("by_number", by_number)
    db.execute("CREATE TABLE part (%s)" % ", ".join("c%d" % place for place in range(len(texts))))
    for answer in answers:
        header, *rows = csv.reader(io.StringIO(answer, newline=""), strict=True)
        db.executemany("INSERT INTO part VALUES (%s)" % ", ".join("?" * len(texts)), (
            [cell if texts[place] else None if cell == "null" else int(cell)
             for place, cell in enumerate(row)] for row in rows))
    merged = db.execute("SELECT %s FROM part %s %s %s LIMIT %d OFFSET %d" % (
        ", ".join(folded[term] for term in query.terms[:query.shown]),
        "GROUP BY " * bool(keys) + ", ".join(keys), "HAVING " * bool(having) + having,
        "ORDER BY " * bool(order) + ", ".join(order), query.limit, query.offset), literals)
    return "".join(map(record, [header[:query.shown], *merged]))


def record(cells):
    """A line of CSV, with quotes where the program has them."""
    texts = ["null" if cell is None else str(cell) for cell in cells]
    return ",".join('"%s"' % text.replace('"', '""') if re.search('[",\r\n]', text) else text
                    for text in texts) + "\n"


if __name__ == "__main__":
    sys.stdout.reconfigure(encoding="utf-8", newline="")
    if sys.argv[1:2] == ["part"] and len(sys.argv) > 3:
        print(check(sys.argv[2], sys.argv[3:], os.environ.get("PINOT", "pinot")))
    elif sys.argv[1:2] == ["answer"] and len(sys.argv) > 4:
        read = [open(path, newline="", encoding="utf-8").read() for path in sys.argv[4:]]
        print(merge(*sys.argv[2:4], read), end="")
    else:
        sys.exit(__doc__)
