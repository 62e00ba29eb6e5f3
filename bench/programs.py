"""The runs that the benchmarks compare: the command of each, where it runs, and what it must answer."""
import collections
import os
import re
import shutil

BENCH = os.path.dirname(os.path.abspath(__file__))

# The columns of the tables.
NAMES = ("judge", "settle", "clasp")

# The input without atoms and rules, which costs what starting costs, and its size.
EMPTY = ("empty", "0")

# The one with a broken rule alone: a run that ends at a broken rule does not do all that a run on the empty input does.
ONE_BROKEN = ("one-broken", "0")

# The greatest size, in eighths.
WHOLE = "8"

# A run goes on in `folder` within the folder of an input, and its answer, the first match of `answer` in what it prints, is to be
# the line of its column in the file `answers`.
Run = collections.namedtuple("Run", "name command folder answer")

LINE = re.compile(r"^.*$", re.MULTILINE)
SATISFIABLE = re.compile(r"^(?:UN)?SATISFIABLE$", re.MULTILINE)


def built(name):
    """The program of a crate, where `prepare` puts it."""
    return f"{BENCH}/out/{name}"


JUDGE = Run("judge", [built("judge")], ".", LINE)

# The settle run: it settles the claimed atoms, and prints `ranked N`, `looped N` or `broken N`. Another program can stand here.
SETTLE = Run("settle", [built("settle")], "bare", LINE)

# The peer is what is the fastest of these on an input: with and without printing, and in both forms of input.
CLASP = [
    Run("clasp", [shutil.which("clasp"), "-n", "1", *words], ".", SATISFIABLE)
    for words in (["program.smodels"], ["-q", "program.smodels"], ["-q", "program.aspif"])
]

RUNS = [JUDGE, SETTLE, *CLASP]


def check_answer(run, folder, output):
    """Stops where a run does not print what it must."""
    with open(f"{folder}/answers", encoding="ascii") as file:
        wanted = file.read().splitlines()[NAMES.index(run.name)]
    found = run.answer.search(output)
    if found is None or found.group() != wanted:
        raise SystemExit(f"{' '.join(run.command)} in {folder}: not {wanted} but {output!r}")


def inputs_in(room):
    """The names of the inputs that have sizes."""
    return sorted(name for name in os.listdir(room) if name not in (EMPTY[0], ONE_BROKEN[0]))


def places_in(room, sizes):
    """The inputs at these sizes, those that cost what starting costs first."""
    return [EMPTY, ONE_BROKEN, *((name, size) for name in inputs_in(room) for size in sizes)]


def start_of(folder):
    """The input that costs what starting costs where runs end as they do on this one."""
    with open(f"{folder}/answers", encoding="ascii") as file:
        return ONE_BROKEN if file.read().startswith("broken ") else EMPTY


def bytes_of(name, folder):
    """The size of the program and the certificate; for clasp, which reads them as text, that of the files of judge."""
    place = f"{folder}/{SETTLE.folder}" if name == "settle" else folder
    return sum(os.path.getsize(f"{place}/{file}.bin") for file in ("program", "certificate"))


def least(costs):
    """The lowest cost of each column, where costs are pairs of a run and its cost."""
    lowest = {}
    for run, cost in costs:
        lowest[run.name] = min(cost, lowest.get(run.name, cost))
    return lowest


def print_table(title, columns, rows):
    """Prints a table as it stands in docs/PERFORMANCE.md."""
    print(f"\n{title}\n")
    print("| " + " | ".join(columns) + " |")
    print("|---" + "|---:" * (len(columns) - 1) + "|")
    for row in rows:
        print("| " + " | ".join(row) + " |")


def print_costs(title, room, cells, costs):
    """Prints what each input and size costs, and the costs of judge and of settle as parts of those of clasp; at the whole size
    also where what starting costs is taken off. `costs` has the cost of each column, and `cells` how it is written."""
    rows = []
    for (name, size), cost in costs.items():
        start = costs[start_of(f"{room}/{name}/{size}")]
        row = [name, f"{size}/8", str(bytes_of("judge", f"{room}/{name}/{size}")), *cells[name, size]]
        row += [f"{cost[column] / cost['clasp']:.2f}" for column in ("judge", "settle")]
        for column in ("judge", "settle"):
            peer = cost["clasp"] - start["clasp"]
            row.append(f"{(cost[column] - start[column]) / peer:.2f}" if size == WHOLE else "-")
        rows.append(row)
    ratios = ["judge/clasp", "settle/clasp"]
    print_table(title, ["input", "size", "bytes", *NAMES, *ratios, *(f"{ratio} after starting" for ratio in ratios)], rows)


def print_growth(title, room, sizes, costs):
    """Prints the cost of a byte at the least and at the greatest size, where what starting costs is taken off."""
    columns = ["input"]
    for column in NAMES:
        columns += [f"{column} at {sizes[0]}/8", f"at {sizes[-1]}/8", "growth"]
    rows = []
    for name in inputs_in(room):
        start = costs[start_of(f"{room}/{name}/{sizes[-1]}")]
        row = [name]
        for column in NAMES:
            small, large = (
                (costs[name, size][column] - start[column]) / bytes_of(column, f"{room}/{name}/{size}")
                for size in (sizes[0], sizes[-1])
            )
            row += [f"{small:.1f}", f"{large:.1f}", f"{large / small:.2f}" if small > 0 else "-"]
        rows.append(row)
    print_table(title, columns, rows)
