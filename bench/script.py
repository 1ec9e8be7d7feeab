"""Writes a script for `drive`, just under 10 million bytes of mixed calls on 256 pages, always the same, to standard output.

    script.py [REPORTS [AUDITS [BYTES]]]    of a thousand calls, so many are reports and audits (10 and 1)

Regions and subregions fill up until no page is free; then one is deleted, and others are begun. A small model of the store is kept,
so that nearly all calls are accepted. How many calls, reports and audits there are is said on standard error.
"""
import sys

LIMIT = 10_000_000
PAGES = 256
WORDS = 64
MOST_FRAMES = 32
DEEPEST = 16
# how many regions live at a time, and how many pages the permanent one may hold
REGIONS = 12
PERMANENT = 16
KINDS = [(1,), (1, 0), (0, 0), (2, 0), (3, 1), (4, 1, 0)]

(DECLARE, NEW_REGION, SUBREGION, PUSH, DROP, HAND_BACK, ALLOCATE, FIRST, COPY, FETCH, CLEAR, LOAD,
 SET_POINTER, PUT, GET, VIEW, SAME, ABOUT, REPORT, TOTALS, AUDIT, DELETE) = range(2, 24)


class Numbers:
    """Numbers from a fixed seed, by xorshift."""

    def __init__(self):
        self.x = 0x9E3779B97F4A7C15

    def below(self, n):
        x = self.x
        x ^= x << 13 & (1 << 64) - 1
        x ^= x >> 7
        x ^= x << 17 & (1 << 64) - 1
        self.x = x
        return (x >> 32) % n

    def among(self, them):
        return them[self.below(len(them))]


class Region:
    def __init__(self, name, above):
        self.name = name
        self.above = above
        self.level = above.level + 1 if above else 1
        self.subregions = 0
        self.pages = 0
        self.room = 0
        self.objects = []
        # outside pointers, in words and in slots
        self.words = 0
        self.slots = 0


class Object:
    def __init__(self, region, kind):
        self.region = region
        self.kind = kind
        self.words = [None] * len(KINDS[kind])


class Script:
    def __init__(self, reports, audits, limit):
        self.limit = limit
        self.out = []
        self.size = 0
        self.calls = 1
        self.reports = 0
        self.audits = 0
        self.numbers = Numbers()
        self.regions = [Region(1, None)]
        self.name = 1
        self.free = PAGES
        self.frames = []
        self.write("pages %d" % PAGES)
        for marks in KINDS:
            self.call(DECLARE, *marks)
        rates = [
            (250, self.allocate), (200, self.set_pointer), (100, self.load), (80, self.put), (60, self.get), (60, self.copy),
            (40, self.first), (20, self.clear), (30, self.fetch), (20, self.same), (20, self.about), (20, self.view),
            (30, self.push), (12, self.drop), (15, self.hand_back), (5, self.totals), (8, self.begin),
        ]
        # the rates of reports and audits are of all calls, those above of the rest
        rest = 1000 - reports - audits
        whole = sum(r for r, _ in rates)
        self.rates = [(1000 * rest * r // whole, f) for r, f in rates]
        self.rates += [(int(1000 * reports), self.report), (int(1000 * audits), self.audit)]
        self.whole = sum(r for r, _ in self.rates)

    def write(self, line):
        self.out.append(line)
        self.size += len(line) + 1

    def call(self, *numbers):
        self.write(" ".join(map(str, numbers)))
        self.calls += 1

    # slots of the top frame

    def top(self):
        return self.frames[-1]

    def slot(self):
        return self.numbers.below(len(self.top()))

    def slots(self, wanted):
        return [i for i, v in enumerate(self.top()) if v and wanted(v)]

    def fill(self, frame, i, value):
        if frame[i]:
            frame[i].region.slots -= 1
        if value:
            value.region.slots += 1
        frame[i] = value

    # a slot with an object that has such a word, and the word; none is looked for long
    def word(self, pointer):
        found = self.slots(lambda v: any((m != 0) == pointer for m in KINDS[v.kind]))
        if not found:
            return None
        i = self.numbers.among(found)
        marks = KINDS[self.top()[i].kind]
        return i, self.numbers.among([w for w, m in enumerate(marks) if (m != 0) == pointer])

    # the calls

    def push(self):
        if len(self.frames) < MOST_FRAMES:
            n = 3 + self.numbers.below(6)
            self.frames.append([None] * n)
            self.call(PUSH, n)

    def popped(self):
        frame = self.frames.pop()
        for i in range(len(frame)):
            self.fill(frame, i, None)

    def drop(self):
        if len(self.frames) > 1:
            self.popped()
            self.call(DROP)

    def hand_back(self):
        if len(self.frames) > 1:
            i = self.slot()
            j = self.numbers.below(len(self.frames[-2]))
            value = self.top()[i]
            self.popped()
            self.fill(self.top(), j, value)
            self.call(HAND_BACK, i, j)

    def begin(self):
        if len(self.regions) >= REGIONS:
            return
        above = self.numbers.among(self.regions) if self.numbers.below(2) else None
        self.name += 1
        if above and above.name > 1 and above.level < DEEPEST:
            above.subregions += 1
            self.call(SUBREGION, above.name)
        else:
            above = None
            self.call(NEW_REGION)
        self.regions.append(Region(self.name, above))

    def allocate(self):
        region = self.numbers.among(self.regions)
        kind = self.numbers.below(len(KINDS))
        need = 1 + len(KINDS[kind])
        if region.room < need:
            if self.free == 0:
                return self.delete()
            if region.name == 1 and region.pages == PERMANENT:
                return
            self.free -= 1
            region.pages += 1
            region.room = WORDS
        region.room -= need
        value = Object(region, kind)
        region.objects.append(value)
        i = self.slot()
        self.fill(self.top(), i, value)
        self.call(ALLOCATE, i, region.name, kind + 1)

    def first(self):
        region = self.numbers.among(self.regions)
        i = self.slot()
        self.fill(self.top(), i, region.objects[0] if region.objects else None)
        self.call(FIRST, i, region.name)

    def copy(self):
        found = self.slots(lambda v: True)
        if found:
            i, j = self.numbers.among(found), self.slot()
            self.fill(self.top(), j, self.top()[i])
            self.call(COPY, i, j)

    def fetch(self):
        if len(self.frames) > 1:
            i, j = self.numbers.below(len(self.frames[-2])), self.slot()
            self.fill(self.top(), j, self.frames[-2][i])
            self.call(FETCH, i, j)

    def clear(self):
        i = self.slot()
        self.fill(self.top(), i, None)
        self.call(CLEAR, i)

    def load(self):
        found = self.word(True)
        if found:
            i, w = found
            j = self.slot()
            self.fill(self.top(), j, self.top()[i].words[w])
            self.call(LOAD, i, w, j)

    # a mark's rule; a free pointer leads to an older region here, so that the youngest can go
    def allowed(self, holder, w, value):
        if value is None:
            return True
        here, there = holder.region, value.region
        return {
            1: there.name <= here.name,
            2: there is here,
            3: there is here or there is here.above,
            4: there.name == 1,
        }[KINDS[holder.kind][w]]

    def counted(self, holder, w):
        value = holder.words[w]
        if value and KINDS[holder.kind][w] == 1 and value.region is not holder.region:
            return value.region
        return None

    def set_pointer(self):
        found = self.word(True)
        if not found:
            return
        i, w = found
        holder = self.top()[i]
        # now and then a pointer that may break the word's mark, and is refused
        bold = KINDS[holder.kind][w] != 1 and self.numbers.below(100) == 0
        choice = [j for j, v in enumerate(self.top()) if bold or self.allowed(holder, w, v)]
        if not choice:
            return
        led = [j for j in choice if self.top()[j]]
        j = self.numbers.among(led or choice)
        value = self.top()[j]
        self.call(SET_POINTER, i, w, j)
        if not self.allowed(holder, w, value):
            return
        old = self.counted(holder, w)
        if old:
            old.words -= 1
        holder.words[w] = value
        new = self.counted(holder, w)
        if new:
            new.words += 1

    def put(self):
        found = self.word(False)
        if found:
            self.call(PUT, *found, self.numbers.below(100))

    def get(self):
        found = self.word(False)
        if found:
            self.call(GET, *found)

    def view(self):
        found = self.slots(lambda v: not any(KINDS[v.kind]))
        if found:
            self.call(VIEW, self.numbers.among(found))

    def same(self):
        self.call(SAME, self.slot(), self.slot())

    def about(self):
        self.call(ABOUT, self.slot())

    def totals(self):
        self.call(TOTALS)

    def report(self):
        self.call(REPORT, self.numbers.among(self.regions).name)
        self.reports += 1

    def audit(self):
        self.call(AUDIT)
        self.audits += 1

    # a region that no word leads into goes: frames are dropped and slots cleared until no slot does either
    def delete(self):
        found = [r for r in self.regions if r.name > 1 and r.subregions == 0 and r.words == 0]
        if not found:
            return
        region = self.numbers.among(found)
        while len(self.frames) > 1 and any(v and v.region is region for f in self.frames[:-1] for v in f):
            self.drop()
        for i in self.slots(lambda v: v.region is region):
            self.fill(self.top(), i, None)
            self.call(CLEAR, i)
        for holder in region.objects:
            for w in range(len(holder.words)):
                old = self.counted(holder, w)
                if old:
                    old.words -= 1
        if region.above:
            region.above.subregions -= 1
        self.free += region.pages
        self.regions.remove(region)
        self.call(DELETE, region.name)

    def step(self):
        at = self.numbers.below(self.whole)
        for rate, act in self.rates:
            if at < rate:
                return act()
            at -= rate

    def text(self):
        self.push()
        self.begin()
        while self.size < self.limit - 1024:
            self.step()
        return "\n".join(self.out) + "\n"


def main():
    given = [float(x) for x in sys.argv[1:4]]
    reports, audits, limit = given + [10, 1, LIMIT][len(given):]
    script = Script(reports, audits, limit)
    sys.stdout.write(script.text())
    print("%d bytes, %d calls, of which %d reports and %d audits" % (script.size, script.calls, script.reports, script.audits), file=sys.stderr)


main()
