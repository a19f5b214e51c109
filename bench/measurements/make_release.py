"""Makes a Full release and a Delta of a made terminology, in RF2, for measurements and trials.

make_release.py [--package] FOLDER ROWS [SEED]

FOLDER/full holds a Full release of about ROWS rows of the five kinds, several versions of many of
them, and FOLDER/delta a Delta of 100 rows. With --package they are of all sorts of files that an
international edition has: to a concept three descriptions, seven relationships and twelve members
of reference sets. Each concept has a fully specified name there and a parent that was made before
it, and each description is preferred or acceptable in two languages. The same words give the same
bytes. Seeds from 1 to 7 give releases that share no component.
"""

import argparse
import os
import random
import uuid
from pathlib import Path
from typing import Callable, Iterable, Iterator, Mapping, NamedTuple, Optional, Sequence

CORE = 900000000000207008
MODEL = 900000000000012004
PRIMITIVE = 900000000000074008
DEFINED = 900000000000073002
SYNONYM = 900000000000013009
FULLY_SPECIFIED = 900000000000003001
DEFINITION = 900000000000550004
CASE_INSENSITIVE = 900000000000448009
INFERRED = 900000000000011006
MODIFIER = 900000000000451002
IS_A = 116680003
SAME_AS = 900000000000527005
REPLACED_BY = 900000000000526001
ROOT = 138875005

# Reference sets, and what stands in their columns.
LANGUAGES = US_ENGLISH, GB_ENGLISH = 900000000000509007, 900000000000508004
PREFERRED, ACCEPTABLE = 900000000000548007, 900000000000549004
AXIOMS, ROLE_GROUP = 733073007, 609096000
WHY_CONCEPTS_ARE_INACTIVE, WHY_DESCRIPTIONS_ARE_INACTIVE = 900000000000489007, 900000000000490003
# Duplicate, outdated, ambiguous, erroneous, of limited status.
REASONS = (900000000000482003, 900000000000483008, 900000000000484002, 900000000000485001,
           900000000000486000)
VALUE_SETS = (723264001, 733990004)
MAPS = 900000000000497000, 446608001
ICD_10 = 447562003
CORRELATION, CATEGORIES = 447561005, (447637006, 447638001)
DESCRIPTORS, DESCRIBED, DESCRIBED_TYPE = 900000000000456007, 449608002, 900000000000461009
FORMATS, PLAIN_TEXT = 900000000000538005, 900000000000540000
DEPENDENCIES = 900000000000534007
DOMAINS, ATTRIBUTE_DOMAINS, ATTRIBUTE_RANGES, SCOPES = 723560006, 723561005, 723562003, 723563008
MANDATORY, ALL_CONTENT = 723597001, 723596005
ATTRIBUTES = (363698007, 116676008, 246075003, 260686004, 405813007, 127489000, 411116001)

MEMBER_COLUMNS = "id effectiveTime active moduleId refsetId referencedComponentId"


class Sort(NamedTuple):
    """A sort of files, as release_sorts.txt says."""

    kind: str
    name: str
    columns: str


def members(name: str, further: str = "") -> Sort:
    """A sort of files of members, whose names have a letter for each further column."""
    return Sort("M", name + "_INT_{}.txt", MEMBER_COLUMNS + further)


def sorts_in(group: str) -> dict[str, Sort]:
    lines = (line.split(" | ") for line in group.splitlines())
    return {name: Sort(*columns) for name, *columns in lines}


# The sorts of files that each layout of a store keeps, by the letters of their kinds; those that
# layout 3 keeps besides; and those that a package has and no store keeps.
BASIC_SORTS, FURTHER_SORTS, UNKEPT_SORTS = map(
    sorts_in, Path(__file__).with_name("release_sorts.txt").read_text("utf-8").split("\n\n")[1:])
SORTS = {**BASIC_SORTS, **FURTHER_SORTS, **UNKEPT_SORTS}
KINDS = "".join(BASIC_SORTS)

# How many rows of a hundred are of each kind, roughly as in an international edition without its
# reference sets.
SHARES = {"C": 15, "D": 45, "R": 34, "A": 5, "V": 1}
# How many of ten thousand rows of a package are of each sort that has a row a concept or more.
PACKAGE_SHARES = {
    "C": 435, "D": 1295, "TextDefinition": 10, "R": 3014, "V": 30, "A": 130, "OWLExpression": 640,
    "AttributeValue": 420, "Simple": 40, "Language": 2610, "SimpleMap": 720, "ExtendedMap": 640,
    "RefsetDescriptor": 4, "DescriptionType": 1, "ModuleDependency": 2, "MRCMDomain": 2,
    "MRCMAttributeDomain": 3, "MRCMAttributeRange": 3, "MRCMModuleScope": 1}
PACKAGE_PARTS = 10_000
# How many components of a sort are remembered, for a Delta to have versions of.
MOST_KEPT = 10_000
# How many rows the files have that no store keeps.
UNKEPT_ROWS = 20
# The sorts of the rows of a Delta, one after the other, again and again.
DELTA_SORTS = "CCDDDDDRRRRAV"
PACKAGE_DELTA_SORTS = (
    "C", "Language", "D", "D", "R", "R", "Language", "SimpleMap", "OWLExpression", "A", "V",
    "ExtendedMap", "AttributeValue", "Simple", "TextDefinition", "Language", "RefsetDescriptor",
    "ModuleDependency", "MRCMAttributeRange")
DELTA_ROWS = 100
FULL_DATE, DELTA_DATE = "20250731", "20260131"
DATES = ["%d%s31" % (year, month) for year in range(2010, 2026) for month in ("01", "07")]
WORDS = (
    "acute chronic left right structure finding disorder procedure entire fracture of bone heart "
    "lung kidney liver artery vein nerve muscle skin blood cell test measurement observable "
    "product substance oral tablet injection congenital acquired benign malignant neoplasm "
    "inflammation infection Straße Ödem naïve bacterial viral upper lower upper-limb eye ear"
).split()

# Verhoeff's tables: how the turns (0 to 4) and mirrorings (5 to 9) of a pentagon are put together,
# and what stands for a digit at each place.
TABLE = [[(one + other) % 5 + other // 5 * 5 if one < 5 else (one - other) % 5 + 5 - other // 5 * 5
          for other in range(10)] for one in range(10)]
PLACES = [list(range(10))]
while len(PLACES) < 8:
    PLACES.append([PLACES[-1][place] for place in (1, 5, 7, 6, 2, 8, 3, 0, 9, 4)])
INVERSE = [0, 4, 3, 2, 1, 5, 6, 7, 8, 9]
# The digits before the check digit that say what an SCTID identifies.
PARTITIONS = {"C": "00", "D": "01", "R": "02", "V": "02"}

Columns = list[object]


class Component(NamedTuple):
    """A component's identifier, its sort, and the columns of its first version behind the four
    that each row has."""

    name: object
    sort: str
    body: Columns


def sctid(item: int, partition: str) -> int:
    """The SCTID of an item, with its Verhoeff check digit."""
    text = "%d%s" % (item, partition)
    check = 0
    for place, digit in enumerate(reversed(text), 1):
        check = TABLE[check][PLACES[place % 8][int(digit)]]
    return int(text + str(INVERSE[check]))


class Edition:
    """The components made so far, and the columns behind the first four of each."""

    def __init__(self, seed: int) -> None:
        self.random = random.Random(seed)
        self.shift = (seed - 1) % 7
        self.concepts = [ROOT]
        self.made: dict[str, list[Component]] = {sort: [] for sort in SORTS}
        # Relationships with and without values share one row of numbers, as they share a partition.
        self.items = {"00": 1000, "01": 1000, "02": 1000}

    def name(self, sort: str) -> object:
        kind = SORTS[sort].kind
        if kind not in PARTITIONS:
            return str(uuid.UUID(int=self.random.getrandbits(128)))
        partition = PARTITIONS[kind]
        self.items[partition] += 1
        return sctid(self.items[partition] * 7 + self.shift, partition)

    def body(self, sort: str) -> Columns:
        if sort in MEMBER_BODIES:
            return MEMBER_BODIES[sort](self)
        chance = self.random
        concept = chance.choice(self.concepts)
        if sort == "C":
            return [chance.choice([PRIMITIVE, PRIMITIVE, DEFINED])]
        if sort == "D":
            term, what = self.term(chance.randint(2, 7)), chance.choice([SYNONYM, FULLY_SPECIFIED])
            return [concept, "en", what, term, CASE_INSENSITIVE]
        if sort == "TextDefinition":
            return [concept, "en", DEFINITION, self.term(30) + ".", CASE_INSENSITIVE]
        if sort == "R":
            # Few parents have many children, as in a real hierarchy.
            place = int(len(self.concepts) * chance.random() ** 3)
            what = IS_A if chance.random() < 0.6 else chance.choice(self.concepts)
            group = chance.choice([0, 0, 1, 2])
            return [concept, self.concepts[place], group, what, INFERRED, MODIFIER]
        if sort == "V":
            value = "#%s" % chance.choice(["5", "0.5", "12.5", "250", "1000"])
            what = chance.choice(self.concepts)
            return [concept, value, chance.choice([0, 1, 2]), what, INFERRED, MODIFIER]
        return [chance.choice([SAME_AS, REPLACED_BY]), concept, chance.choice(self.concepts)]

    def term(self, words: int) -> str:
        """So many words, with a capital at the beginning."""
        text = " ".join(self.random.choice(WORDS) for _ in range(words))
        return text[0].upper() + text[1:]

    def a_concept(self) -> int:
        return self.random.choice(self.concepts)

    def a_description(self) -> object:
        """A description; a concept as long as none was made."""
        made = self.made["D"]
        return self.random.choice(made).name if made else self.a_concept()

    def later_body(self, made: Component) -> Optional[Columns]:
        """The columns of a later version; None where they are those of the first one."""
        if made.sort not in "CD":
            return None
        body = self.body(made.sort)
        if made.sort == "D":
            body[0] = made.body[0]
        return body

    def component(self, sort: str) -> Component:
        made = Component(self.name(sort), sort, self.body(sort))
        self.keep(made)
        return made

    def keep(self, made: Component) -> None:
        self.made[made.sort].append(made)
        if made.sort == "C":
            assert isinstance(made.name, int)
            self.concepts.append(made.name)


def map_body(edition: Edition) -> Columns:
    chance = edition.random
    target = "".join(chance.choice("ABCDXYZabc0123456789.") for _ in range(5))
    return [chance.choice(MAPS), edition.a_concept(), target]


def extended_map_body(edition: Edition) -> Columns:
    chance = edition.random
    code = "%s%02d.%d" % (chance.choice("ABCDEFGHIJKLMNST"), chance.randrange(100),
                          chance.randrange(10))
    if chance.random() < 0.2:
        rule = "IFA %d | %s |" % (edition.a_concept(), edition.term(3))
        advice = "IF %s CHOOSE %s | MAP OF SOURCE CONCEPT IS CONTEXT DEPENDENT" % (rule[4:], code)
    else:
        rule, advice = "TRUE", "ALWAYS %s" % code
    group, priority = chance.choice([1, 1, 1, 2]), chance.choice([1, 1, 2, 3])
    return [ICD_10, edition.a_concept(), group, priority, rule, advice, code, CORRELATION,
            chance.choice(CATEGORIES)]


def axiom_body(edition: Edition) -> Columns:
    chance, concept = edition.random, edition.a_concept()
    parts = [":%d" % edition.a_concept()]
    for _ in range(chance.randint(0, 3)):
        parts.append("ObjectSomeValuesFrom(:%d ObjectSomeValuesFrom(:%d :%d))"
                     % (ROLE_GROUP, chance.choice(ATTRIBUTES), edition.a_concept()))
    what = parts[0] if len(parts) == 1 else "ObjectIntersectionOf(%s)" % " ".join(parts)
    return [AXIOMS, concept, "SubClassOf(:%d %s)" % (concept, what)]


def reason_body(edition: Edition) -> Columns:
    component: object
    if edition.random.random() < 0.5:
        what, component = WHY_CONCEPTS_ARE_INACTIVE, edition.a_concept()
    else:
        what, component = WHY_DESCRIPTIONS_ARE_INACTIVE, edition.a_description()
    return [what, component, edition.random.choice(REASONS)]


def domain_body(edition: Edition) -> Columns:
    concept = edition.a_concept()
    constraint = "<< %d | %s |" % (concept, edition.term(4))
    template = "[[+id(%s)]]: [[0..*]] { %s }" % (constraint, ", ".join(
        "[[0..1]] %d = [[+id(<< %d | %s |)]]" % (attribute, edition.a_concept(), edition.term(4))
        for attribute in ATTRIBUTES))
    return [DOMAINS, concept, constraint, "", constraint, "", template, template,
            "http://snomed.org/dom%d" % concept]


def attribute_range_body(edition: Edition) -> Columns:
    attribute = edition.random.choice(ATTRIBUTES)
    constraint = " OR ".join(
        "<< %d | %s |" % (edition.a_concept(), edition.term(4)) for _ in range(4))
    rule = "(<< %d: [0..*] { [0..1] %d = (%s) })" % (edition.a_concept(), attribute, constraint)
    return [ATTRIBUTE_RANGES, attribute, constraint, rule, MANDATORY, ALL_CONTENT]


# What a member of each sort says.
MEMBER_BODIES: dict[str, Callable[[Edition], Columns]] = {
    "OWLExpression": axiom_body,
    "Simple": lambda edition: [edition.random.choice(VALUE_SETS), edition.a_concept()],
    "AttributeValue": reason_body,
    "Language": lambda edition: [
        edition.random.choice(LANGUAGES), edition.a_description(),
        edition.random.choice([PREFERRED, ACCEPTABLE])],
    "SimpleMap": map_body,
    "ExtendedMap": extended_map_body,
    "RefsetDescriptor": lambda edition: [
        DESCRIPTORS, edition.a_concept(), DESCRIBED, DESCRIBED_TYPE, edition.random.randrange(9)],
    "DescriptionType": lambda edition: [
        FORMATS, edition.random.choice([SYNONYM, FULLY_SPECIFIED, DEFINITION]), PLAIN_TEXT,
        edition.random.choice([255, 4096])],
    "ModuleDependency": lambda edition: [
        DEPENDENCIES, MODEL, *[edition.random.choice(DATES)] * 2],
    "MRCMDomain": domain_body,
    "MRCMAttributeDomain": lambda edition: [
        ATTRIBUTE_DOMAINS, edition.random.choice(ATTRIBUTES), edition.a_concept(),
        edition.random.choice("01"), "0..*", "0..1", MANDATORY, ALL_CONTENT],
    "MRCMAttributeRange": attribute_range_body,
    "MRCMModuleScope": lambda edition: [
        SCOPES, CORE, edition.random.choice([DOMAINS, ATTRIBUTE_DOMAINS, ATTRIBUTE_RANGES])]}


class Package(Edition):
    """An edition whose rows fit one another. Each concept has a fully specified name, a parent and
    a synonym that is preferred; what isn't so is drawn."""

    def __init__(self, seed: int) -> None:
        super().__init__(seed)
        self.counts = dict.fromkeys(SORTS, 0)
        # Of each description its identifier, and whether it is the first of its concept and type.
        self.descriptions: list[tuple[int, bool]] = []

    def keep(self, made: Component) -> None:
        self.counts[made.sort] += 1
        if made.sort == "C":
            assert isinstance(made.name, int)
            self.concepts.append(made.name)
        elif made.sort == "D":
            assert isinstance(made.name, int)
            # The first two descriptions of each concept are made before all others.
            self.descriptions.append((made.name, self.counts["D"] <= 2 * len(self.concepts)))
        if len(self.made[made.sort]) < MOST_KEPT:
            self.made[made.sort].append(made)

    def a_description(self) -> object:
        return self.random.choice(self.descriptions)[0] if self.descriptions else self.a_concept()

    def body(self, sort: str) -> Columns:
        number, all_of = self.counts[sort], len(self.concepts)
        if sort == "D":
            concept = self.concepts[number % all_of] if number < 2 * all_of else self.a_concept()
            what = FULLY_SPECIFIED if number < all_of else SYNONYM
            term = self.term(self.random.randint(2, 7))
            return [concept, "en", what, term, CASE_INSENSITIVE]
        if sort == "R":
            if number < all_of - 1:
                parent = self.concepts[int((number + 1) * self.random.random() ** 1.5)]
                return [self.concepts[number + 1], parent, 0, IS_A, INFERRED, MODIFIER]
            what = self.random.choice(ATTRIBUTES)
            group = self.random.choice([0, 1, 2])
            return [self.a_concept(), self.a_concept(), group, what, INFERRED, MODIFIER]
        if sort == "Language" and number < len(LANGUAGES) * len(self.descriptions):
            place, language = divmod(number, len(LANGUAGES))
            name, is_first = self.descriptions[place]
            return [LANGUAGES[language], name, PREFERRED if is_first else ACCEPTABLE]
        if sort == "SimpleMap" and number < all_of:
            return [MAPS[0], self.concepts[number], *map_body(self)[2:]]
        return super().body(sort)

    def later_body(self, made: Component) -> Optional[Columns]:
        if made.sort == "D":
            return [*made.body[:3], self.term(self.random.randint(2, 7)), CASE_INSENSITIVE]
        if SORTS[made.sort].kind != "M":
            return super().later_body(made)
        # A version says something else in its further columns alone.
        return [*made.body[:2], *self.body(made.sort)[2:]]


def line(made: Component | tuple[object, str, Columns], date: str, active: int,
         body: Optional[Columns] = None) -> str:
    columns = [made[0], date, active, CORE] + (body or made[2])
    return "\t".join(str(column) for column in columns)


def write_file(folder: str, release: str, date: str, sort: Sort, rows: Iterable[str]) -> int:
    """Writes a file of a sort, and tells how many rows it has."""
    path = os.path.join(folder, sort.name.format(release, date))
    os.makedirs(os.path.dirname(path), exist_ok=True)
    count = 0
    with open(path, "w", encoding="utf-8", newline="") as file:
        file.write(sort.columns.replace(" ", "\t") + "\r\n")
        for row in rows:
            file.write(row + "\r\n")
            count += 1
    return count


def write(folder: str, release: str, date: str, rows: Mapping[str, Iterable[str]]) -> None:
    """Writes a file of each of the five kinds, and of each other sort that has rows."""
    for name, sort in SORTS.items():
        if name in KINDS or name in rows:
            write_file(folder, release, date, sort, rows[name])


def files_of(folder: str | Path, sorts: Iterable[str] = SORTS) -> Iterator[tuple[str, Path]]:
    """The files of a release that are of these sorts, each with its sort."""
    for sort in sorts:
        where, _, name = SORTS[sort].name.rpartition("/")
        front, _, back = name.partition("{}")
        yield from ((sort, path) for path in sorted(Path(folder, where).glob(front + "*"))
                    if back.partition("_INT_")[0] in path.name)


def rows_of(folder: str | Path, sort: str) -> Iterator[list[str]]:
    """The columns of the rows that a release has of a sort."""
    for _, path in files_of(folder, [sort]):
        with open(path, encoding="utf-8", newline="") as file:
            next(file)
            yield from (line.rstrip("\r\n").split("\t") for line in file)


def versions_of(edition: Edition, sort: str, count: int) -> Iterator[str]:
    """Rows of a sort: each component's versions, one after the other."""
    left = count
    while left > 0:
        made = edition.component(sort)
        versions = min(left, edition.random.choice([1, 1, 1, 2, 2, 3]))
        dates = sorted(edition.random.sample(DATES, versions))
        for number, date in enumerate(dates):
            retired = number > 0 and edition.random.random() < 0.3
            body = edition.later_body(made) if number > 0 else None
            yield line(made, date, 0 if retired else 1, body)
        left -= versions


def full(edition: Edition, count: int) -> dict[str, list[str]]:
    """Rows of a Full release of the five kinds."""
    return {kind: list(versions_of(edition, kind, count * SHARES[kind] // 100)) for kind in KINDS}


def delta(edition: Edition, sorts: Sequence[str] = DELTA_SORTS) -> dict[str, list[str]]:
    """A hundred rows: new versions of known components, and new components, each of another one."""
    rows: dict[str, list[str]] = {sort: [] for sort in (*KINDS, *sorts)}
    taken = set()
    for number in range(DELTA_ROWS):
        sort = sorts[number % len(sorts)]
        if number % 2:
            made = edition.component(sort)
            rows[sort].append(line(made, DELTA_DATE, 1))
        else:
            made = edition.made[sort][number * 7919 % len(edition.made[sort])]
            if made.name in taken:
                made = edition.component(sort)
            rows[sort].append(line(made, DELTA_DATE, number // 2 % 2))
        taken.add(made.name)
    return rows


def identifiers(package: Package) -> Iterator[str]:
    for number in range(UNKEPT_ROWS):
        columns = ["%d-%d" % (1000 + number, number % 10), FULL_DATE, 1, CORE, ICD_10,
                   package.a_concept()]
        yield "\t".join(map(str, columns))


def write_package(folder: str, package: Package, count: int) -> dict[str, int]:
    """Writes a Full release of all sorts of files, a file at a time, and tells the rows of each."""
    counts = {}
    for sort, share in PACKAGE_SHARES.items():
        wanted = max(1, count * share // PACKAGE_PARTS)
        rows = versions_of(package, sort, wanted)
        counts[sort] = write_file(folder, "Full", FULL_DATE, SORTS[sort], rows)
    stated = (line(Component(package.name("R"), "R", Edition.body(package, "R")), DATES[0], 1)
              for _ in range(UNKEPT_ROWS))
    unkept = {"StatedRelationship": stated, "Identifier": identifiers(package)}
    for name, lines in unkept.items():
        write_file(folder, "Full", FULL_DATE, UNKEPT_SORTS[name], lines)
    return counts


class Made(NamedTuple):
    """A Full release and a Delta to it, and how many rows they have."""

    full: Path
    delta: Path
    told: str


def make(folder: str | Path, rows: int, seed: int = 1, is_package: bool = False) -> Made:
    """Makes both in a folder, as the text at the top says."""
    to_full, to_delta = Path(folder, "full"), Path(folder, "delta")
    if is_package:
        package = Package(seed)
        counts = write_package(str(to_full), package, rows)
        new = delta(package, PACKAGE_DELTA_SORTS)
    else:
        edition = Edition(seed)
        made = full(edition, rows)
        write(str(to_full), "Full", FULL_DATE, made)
        counts = {kind: len(made[kind]) for kind in KINDS}
        new = delta(edition)
    write(str(to_delta), "Delta", DELTA_DATE, new)
    told = " ".join("%s %d" % (sort, counts[sort]) for sort in counts)
    return Made(to_full, to_delta, "full: %s; delta: %d rows" % (told, sum(map(len, new.values()))))


if __name__ == "__main__":
    parser = argparse.ArgumentParser(description=(__doc__ or "").partition("\n")[0])
    parser.add_argument("--package", action="store_true", help="all sorts of files")
    parser.add_argument("folder")
    parser.add_argument("rows", type=int)
    parser.add_argument("seed", type=int, nargs="?", default=1)
    asked = parser.parse_args()
    print(make(asked.folder, asked.rows, asked.seed, asked.package).told)
