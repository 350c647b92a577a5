"""A plain model of a table: random calls with the answers that they must have, as lines of crates/store_cases.

    python3 bench/tools/model.py [CALLS [SEED]]

It is written from the rules of the calls (README, docs/USAGE.md, docs/FORMAT.md) and knows nothing of the code: a table is a
list of groups, a group is a number, a key and a list of rows. `bench/tools/model.sh` runs the lines and compares.
"""
import json
import random

import command_line

SIZE = 3
KEYS = ["a", "b", "c"]
SCHEMA = '[{"name":"k","note":"utf8","rep":"required","type":"bytes"},{"name":"x","rep":"required","type":"int64"}]'


class Refused(Exception):
    def __init__(self, number, name):
        self.answer = {"name": name, "refused": number}


NO_GROUP, STALE, NO_JOB = (18, "NoGroup"), (19, "Stale"), (20, "NoJob")
NO_CURSOR, FULL, KEY = (21, "NoCursor"), (22, "Full"), (17, "Key")


def test_of(terms):
    """Whether a row satisfies an AND of terms."""
    compare = {
        "==": lambda a, b: a == b, "!=": lambda a, b: a != b, "<": lambda a, b: a < b, "<=": lambda a, b: a <= b,
        ">": lambda a, b: a > b, ">=": lambda a, b: a >= b, "in": lambda a, b: a in b, "not in": lambda a, b: a not in b,
    }
    return lambda row: all(compare[op](row[column], value) for column, op, value in terms)


class Group:
    def __init__(self, number, key, rows):
        self.number, self.key, self.rows = number, key, rows


class Model:
    def __init__(self):
        self.groups, self.next = [], 0
        self.start()

    def start(self):
        """What an opening leaves: nothing is open."""
        self.jobs, self.cursors, self.next_job, self.next_cursor, self.next_group = {}, {}, 0, 0, self.next

    def number(self):
        self.next_group += 1
        return self.next_group - 1

    def written(self, key, rows):
        return Group(self.number(), key, rows)

    def fill(self, waiting, rows):
        """Rows come one by one; a full group is written at once."""
        full = []
        for row in rows:
            here = waiting.setdefault(row["k"], [])
            here.append(row)
            if len(here) == SIZE:
                full.append(self.written(row["k"], waiting.pop(row["k"])))
        return full

    def rest(self, waiting):
        return [self.written(key, waiting[key]) for key in sorted(waiting)]

    def commit_groups(self, groups):
        self.groups = groups
        self.next = max([self.next, *[it.number + 1 for it in groups]])

    def bring(self, new):
        self.commit_groups(sorted(self.groups + new, key=lambda it: it.key))

    def check_rows(self, rows):
        if any(row["k"] == "" for row in rows):
            raise Refused(*KEY)

    def job(self, number, kind=None):
        if number not in self.jobs or kind and self.jobs[number]["kind"] != kind:
            raise Refused(*NO_JOB)
        return self.jobs[number]

    def begin(self, job):
        self.jobs[self.next_job] = job
        self.next_job += 1
        return {"job": self.next_job - 1}

    def append(self, rows):
        self.check_rows(rows)
        waiting = {}
        new = self.fill(waiting, rows)
        self.bring(new + self.rest(waiting))
        return {"done": len(rows)}

    def begin_append(self):
        if len(self.jobs) == 16:
            raise Refused(*FULL)
        return self.begin({"kind": "append", "written": [], "waiting": {}})

    def stage(self, job, rows):
        found = self.job(job, "append")
        self.check_rows(rows)
        found["written"] += self.fill(found["waiting"], rows)
        return {"ok": True}

    def commit(self, job):
        found = self.job(job)
        if found["kind"] == "append":
            new = found["written"] + self.rest(found["waiting"])
            self.bring(new)
            del self.jobs[job]
            return {"done": sum(len(it.rows) for it in new)}
        sources = [it for run in found["runs"] for it in run]
        if not {it.number for it in sources} <= {it.number for it in self.groups}:
            del self.jobs[job]
            raise Refused(*STALE)
        groups = list(self.groups)
        for run in found["runs"]:
            rows = [row for it in run for row in it.rows]
            parts = [self.written(run[0].key, rows[at : at + SIZE]) for at in range(0, len(rows), SIZE)]
            at = [it.number for it in groups].index(run[0].number)
            gone = {it.number for it in run}
            groups = groups[:at] + parts + [it for it in groups[at:] if it.number not in gone]
        self.commit_groups(groups)
        del self.jobs[job]
        return {"done": sum(len(it.rows) for it in sources)}

    def abort(self, job):
        self.job(job)
        del self.jobs[job]
        return {"ok": True}

    def remove(self, filter):
        test, groups, count = test_of(filter), [], 0
        for group in self.groups:
            rest = [row for row in group.rows if not test(row)]
            count += len(group.rows) - len(rest)
            if len(rest) == len(group.rows):
                groups.append(group)
            elif rest:
                groups.append(self.written(group.key, rest))
        self.commit_groups(groups)
        return {"done": count}

    def has(self, numbers):
        if not set(numbers) <= {it.number for it in self.groups}:
            raise Refused(*NO_GROUP)

    def remove_groups(self, numbers):
        self.has(numbers)
        count = sum(len(it.rows) for it in self.groups if it.number in numbers)
        self.commit_groups([it for it in self.groups if it.number not in numbers])
        return {"done": count}

    def begin_rewrite(self, numbers):
        if len(self.jobs) == 16:
            raise Refused(*FULL)
        self.has(numbers)
        runs, before = [], None
        for group in self.groups:
            if group.number in numbers:
                if before is not None and before.key == group.key and before.number in numbers:
                    runs[-1].append(group)
                else:
                    runs.append([group])
            before = group
        return self.begin({"kind": "rewrite", "runs": runs, "unread": sum(map(len, runs))})

    def step_rewrite(self, job):
        found = self.job(job, "rewrite")
        found["unread"] = max(found["unread"] - 1, 0)
        return {"more": found["unread"] > 0}

    def plan_rewrite(self, min_rows):
        def small(at):
            return 0 <= at < len(self.groups) and len(self.groups[at].rows) < min_rows

        def joins(at, other):
            return small(at) and small(other) and self.groups[at].key == self.groups[other].key

        return {"plan": [it.number for at, it in enumerate(self.groups) if joins(at, at - 1) or joins(at, at + 1)]}

    def query(self, filter, columns):
        if len(self.cursors) == 64:
            raise Refused(*FULL)
        test = test_of(filter)
        names = ["k", "x"] if columns is None else columns
        batches = []
        for group in self.groups:
            rows = [{name: row[name] for name in sorted(set(names))} for row in group.rows if test(row)]
            if rows:
                batches.append(rows)
        self.cursors[self.next_cursor] = batches
        self.next_cursor += 1
        return {"cursor": self.next_cursor - 1}

    def cursor(self, number):
        if number not in self.cursors:
            raise Refused(*NO_CURSOR)
        return self.cursors[number]

    def fetch(self, cursor):
        batches = self.cursor(cursor)
        return {"batch": batches.pop(0)} if batches else {"end": True}

    def close(self, cursor):
        self.cursor(cursor)
        del self.cursors[cursor]
        return {"ok": True}

    def list_groups(self):
        # a page header of 17 bytes, and 8 bytes a row
        shown = [{"bytes": 17 + 8 * len(it.rows), "key": [it.key], "number": it.number, "rows": len(it.rows)} for it in self.groups]
        return {"groups": shown}

    def count(self, filter):
        test = test_of(filter)
        return {"count": sum(test(row) for it in self.groups for row in it.rows)}

    def reopen(self):
        self.start()
        return {"ok": True}


class Calls:
    """Random calls."""

    def __init__(self, model, seed):
        self.model, self.random = model, random.Random(seed)

    def rows(self):
        keys = KEYS if self.random.random() < 0.98 else KEYS + [""]
        return [{"k": self.random.choice(keys), "x": self.random.randint(0, 9)} for _ in range(self.random.randint(0, 5))]

    def filter(self):
        terms = []
        for _ in range(self.random.choice([0, 1, 1, 1, 2])):
            column = self.random.choice("kxx")
            value = lambda: self.random.choice(KEYS) if column == "k" else self.random.randint(0, 9)
            op = self.random.choice(["==", "!=", "<", "<=", ">", ">=", "in", "not in"])
            terms.append([column, op, [value() for _ in range(self.random.randint(0, 3))] if "in" in op else value()])
        return terms

    def some(self, numbers, most):
        """A number of these, or, seldom, another one."""
        if numbers and self.random.random() < 0.95:
            return self.random.choice(sorted(numbers))
        return self.random.randint(0, most)

    def numbers(self):
        there = {it.number for it in self.model.groups}
        return [self.some(there, 99) for _ in range(self.random.choice([0, 1, 2, 2, 3, 4]))]

    def call(self):
        model = self.model
        job = lambda: self.some(model.jobs, model.next_job + 1)
        cursor = lambda: self.some(model.cursors, model.next_cursor + 1)
        kinds = {
            "append": (8, lambda: {"rows": self.rows()}),
            "begin_append": (4, dict),
            "stage": (8, lambda: {"job": job(), "rows": self.rows()}),
            "commit": (6, lambda: {"job": job()}),
            "abort": (1, lambda: {"job": job()}),
            "remove": (3, lambda: {"filter": self.filter()}),
            "remove_groups": (2, lambda: {"numbers": self.numbers()}),
            "begin_rewrite": (5, lambda: {"numbers": self.numbers()}),
            "step_rewrite": (6, lambda: {"job": job()}),
            "plan_rewrite": (2, lambda: {"min_rows": self.random.randint(0, 4)}),
            "query": (5, lambda: {"filter": self.filter(), "columns": self.random.choice([None, None, [], ["x"], ["k"], ["x", "k"]])}),
            "fetch": (14, lambda: {"cursor": cursor()}),
            "close": (2, lambda: {"cursor": cursor()}),
            "groups": (3, dict),
            "count": (4, lambda: {"filter": self.filter()}),
            "reopen": (0.2, dict),
        }
        name = self.random.choices([*kinds], [it[0] for it in kinds.values()])[0]
        return {"call": name, **kinds[name][1]()}


def answer(model, call):
    given = {name: value for name, value in call.items() if name != "call"}
    try:
        return getattr(model, "list_groups" if call["call"] == "groups" else call["call"])(**given)
    except Refused as refused:
        return refused.answer


def text(value):
    return json.dumps(value, separators=(",", ":"), sort_keys=True)


def main(number, seed):
    model = Model()
    calls = Calls(model, seed)
    print(f"create {SIZE} k {SCHEMA} = ok")
    for _ in range(number):
        call = calls.call()
        print(f"{text(call)} = {text(answer(model, call))}")


if __name__ == "__main__":
    main(*command_line.numbers(__doc__, 10_000, 1))
