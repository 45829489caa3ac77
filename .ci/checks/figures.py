"""For check-documents: the figures of docs/settings.md, as runs of the records show them."""
import pathlib
import re
import subprocess
import tempfile

OPTIONS = {"--log": "8", "--limit": "4", "--ring": "64", "--start": "2", "--mutators": "5"}
# How scripts/summary shows the column of a table.
SHOWN = {
    "cards refined": r"\| cards refined in all \| ([\d,]+)",
    "helps": r"\| helps \| ([\d,]+)",
    "by helps": r"\| helps \| [\d,]+: ([\d,]+)",
    "most by one drain": r"\| drains \| .*at most ([\d,]+) by one",
    "pairs": r"\| pairs recorded at the end \| ([\d,]+)",
}


def summary_of(program, record, words):
    """What scripts/summary says of a record that is replayed with these options, or in this heap."""
    text = pathlib.Path(f"examples/traces/{record}.trace").read_text()
    options = dict(OPTIONS)
    if words[0] == "heap":
        text = re.sub("^heap .*$", " ".join(words), text, flags=re.M)
    else:
        options.update(zip(words[::2], words[1::2]))
    line = [program, "run", *(word for option in options.items() for word in option)]
    with tempfile.TemporaryDirectory() as room:
        trace, printed = pathlib.Path(room, "trace"), pathlib.Path(room, "printed")
        trace.write_text(text)
        with open(trace) as given, open(printed, "w") as taken:
            subprocess.run(line, stdin=given, stdout=taken, check=True)
        summary = ["scripts/summary", trace, printed]
        return subprocess.run(summary, capture_output=True, text=True, check=True).stdout


def figures_of(program, record, words):
    """The figures by their columns."""
    summary = summary_of(program, record, words)
    figures = {}
    for column, form in SHOWN.items():
        found = re.search(form, summary)
        figures[column] = found[1] if found else "0"
    if words[0] == "heap":
        slots = int(figures["cards refined"].replace(",", "")) * int(words[3])
        figures["slots read"] = f"{slots:,}"
    return figures


def faults_of(program, tables):
    """For each figure of the tables by options why it is not what a run shows, or nothing. A row
    is a run of the compiler's record and one of the threads'."""
    for head, *body in tables:
        if len(head) < 2 or not head[1].startswith("compiler: "):
            continue
        half = (len(head) - 1) // 2
        columns = [cell.split(": ")[-1] for cell in head[1 : 1 + half]]
        for code, *shown in body:
            words = code.strip("`").split()
            for record, at in (("recorded_compiler", 0), ("recorded_threads", half)):
                figures = figures_of(program, record, words)
                for column, figure in zip(columns, shown[at : at + half]):
                    found = figures[column]
                    why = f"{code}, {record}: {found} {column}, not {figure}"
                    yield "" if found == figure else why
