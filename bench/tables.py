"""The tables of what run.py measured, in Markdown."""
import math


def ratio(row, what, peer="peer"):
    """tracerun's by the peer's."""
    return row["program"][what] / row[peer][what]


def middle(ratios):
    """The geometric mean."""
    return math.exp(sum(math.log(it) for it in ratios) / len(ratios))


def sizes_of(rows, kind):
    """The rows of a kind, by size."""
    return sorted((row for row in rows if row["kind"] == kind), key=lambda row: row["mib"])


def kinds_of(rows):
    return list(dict.fromkeys(row["kind"] for row in rows))


def largest_rows(rows):
    """The row of each kind at its largest size."""
    return [sizes_of(rows, kind)[-1] for kind in kinds_of(rows)]


def growth(rows, who, what):
    """How much more a kind took at its largest size than at its smallest, by how much larger the script was: 1 where
    the cost grows as the work does."""
    small, large = rows[0], rows[-1]
    return large[who][what] / small[who][what] / (large["size"] / small["size"])


def table(head, rows):
    """The first column is text, the others are numbers."""
    lines = [head, ["---"] + ["---:"] * (len(head) - 1), *rows]
    return "".join(f"| {' | '.join(line)} |\n" for line in lines)


def machine_line(results):
    machine = results["machine"]
    return (
        f"{machine['processor']}, {machine['processors']} processors, Linux {machine['kernel']}, {machine['date']}; "
        f"the load before was {machine['load']:.1f}. {results['runs']} runs of each script.\n"
    )


def replay_table(rows):
    head = ["script", "lines", "MB in", "MB out", "CPU s", "peer", "ratio", "by kept", "peak MB", "peer", "ratio"]
    lines = [
        [
            row["kind"], f"{row['lines']:,}", f"{row['size'] / 1e6:.1f}", f"{row['output'] / 1e6:.1f}",
            f"{row['program']['cpu']:.3f}", f"{row['peer']['cpu']:.3f}", f"{ratio(row, 'cpu'):.2f}",
            f"{ratio(row, 'cpu', 'kept'):.2f}", f"{row['program']['peak'] / 1e6:.0f}",
            f"{row['peer']['peak'] / 1e6:.0f}", f"{ratio(row, 'peak'):.2f}",
        ]
        for row in largest_rows(rows)
    ]
    means = [f"{middle([ratio(row, *by) for row in largest_rows(rows)]):.2f}" for by in (("cpu",), ("cpu", "kept"), ("peak",))]
    lines.append(["geometric mean", "", "", "", "", "", means[0], means[1], "", "", means[2]])
    return table(head, lines)


def growth_table(rows):
    lines = []
    for kind in kinds_of(rows):
        of_kind = sizes_of(rows, kind)
        lines.append([
            kind, " ".join(f"{row['mib']:g}" for row in of_kind),
            " ".join(f"{row['program']['cpu']:.3f}" for row in of_kind),
            f"{growth(of_kind, 'program', 'cpu'):.2f}", f"{growth(of_kind, 'peer', 'cpu'):.2f}",
            " ".join(f"{row['program']['peak'] / 1e6:.0f}" for row in of_kind),
            f"{growth(of_kind, 'program', 'peak'):.2f}", f"{growth(of_kind, 'peer', 'peak'):.2f}",
        ])
    return table(["script", "MiB", "CPU s", "growth", "peer's", "peak MB", "growth", "peer's"], lines)


def storm_table(rows):
    head = ["workers", "calls", "middle ms", "peer", "ratio", "least ms", "peer", "ratio", "CPU ms", "peer", "ratio"]
    lines = []
    for row in rows:
        line = [str(row["workers"]), f"{row['calls']:,}"]
        for what in ("middle_clock", "clock", "cpu"):
            line += [f"{row[who][what] * 1e3:.1f}" for who in ("program", "peer")] + [f"{ratio(row, what):.2f}"]
        lines.append(line)
    return table(head, lines)


def all_tables(results):
    rows, parts = results["replay"], [machine_line(results)]
    if rows:
        parts += ["## Each kind of script, at its largest size\n", replay_table(rows)]
    if any(len(sizes_of(rows, kind)) > 1 for kind in kinds_of(rows)):
        parts += [
            "## Growth\n",
            "The growth is what the largest size took by what the smallest took, by how much larger the script was.\n",
            growth_table(rows),
        ]
    if results.get("storm"):
        parts.append(f"## Storms, the middle and the least of {results['storm_runs']} runs\n")
        parts.append(storm_table(results["storm"]))
    if results.get("note"):
        parts.append(results["note"] + "\n")
    return "\n".join(parts)
