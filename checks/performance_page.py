"""Writes docs/performance.md and its plots from what `figures.py` has measured."""
import os
import statistics

from plots import Line, Scale, evenly, plot, powers

PROGRAMS = ["Tellcrock", "gqlparser", "graphql-js"]
SLOWEST = 6


def table(head, rows):
    return "\n".join("| " + " | ".join(it) + " |" for it in (head, ["---"] * len(head), *rows))


def figure(value):
    """A number with three figures that count."""
    return f"{value:,.0f}" if value >= 100 else f"{value:.3g}"


def middle(values):
    return statistics.median(values)


# ---- pricing

def sizes(found):
    return list(found["warm"]["Tellcrock"])


def pricing_plot(found):
    lines = [Line(name, [(int(size), middle([run[0] for run in runs])) for size, runs in found["warm"][name].items()], n) for n, name in enumerate(it for it in PROGRAMS if it in found["warm"])]
    return plot("Processor time for an operation", Scale("bytes of the operation", powers([int(it) for it in sizes(found)]), True),
                Scale("microseconds", powers([y for line in lines for _, y in line.points]), True), lines)


def pricing_rows(found, kind, own, times):
    """For each program and size the middle of the runs, and the least."""
    return [[name, *(f"{figure(middle([run[own] for run in runs]) * times)} ({figure(min(run[own] for run in runs) * times)})" for runs in found[kind][name].values())] for name in PROGRAMS if name in found[kind]]


def pricing_page(found):
    head = ["", *(f"{int(it):,} bytes" for it in sizes(found))]
    return {"warm": table(head, pricing_rows(found, "warm", 0, 1)), "warm_clock": table(head, pricing_rows(found, "warm", 1, 1)), "cold": table(head, pricing_rows(found, "cold", 0, 1000))}


# ---- serving

SERVERS = {"Tellcrock 1": "Tellcrock, 1 worker", "Tellcrock 4": "Tellcrock, 4 workers", "Tellcrock 16": "Tellcrock, 16 workers", "nginx 1": "nginx, 1 process", "nginx 4": "nginx, 4 processes",
           "nginx 16": "nginx, 16 processes", "nginx 4, connections kept": "nginx, 4 processes, kept", "the upstream alone": "no proxy"}
# The colours of those that are plotted.
PLOTTED = {"Tellcrock 1": 0, "Tellcrock 4": 1, "Tellcrock 16": 2, "nginx 1": 0, "nginx 4": 1, "nginx 16": 2, "nginx 4, connections kept": 3}


def answered(runs):
    """The runs in which somebody was answered: a server that waits for its upstream may still be at the requests of the run before. All where there is none."""
    return [run for run in runs if run["count"]] or runs


def served_lines(found):
    """A line for each that was measured: nginx's are dashed."""
    return [Line(SERVERS[name], [(int(at), middle([run["rate"] for run in answered(runs)])) for at, runs in found[name].items()], colour, name.startswith("nginx")) for name, colour in PLOTTED.items() if name in found]


def serving_plot(found):
    lines = served_lines(found)
    return plot("Requests served before one upstream", Scale("connections of the load", [1, 16, 256], True), Scale("requests a second", evenly([y for line in lines for _, y in line.points])), lines)


def waiting_plot(found):
    lines = served_lines(found)
    return plot("Requests served before an upstream that takes 50 ms", Scale("connections of the load", [1, 16, 256], True), Scale("requests a second", powers([y for line in lines for _, y in line.points]), True), lines)


def served_table(found):
    rows = []
    for at in next(iter(found.values())):
        for name in (it for it in SERVERS if it in found):
            runs = answered(found[name][at])
            rates = [it["rate"] for it in runs]
            rows.append([at, SERVERS[name], f"{middle(rates):,.0f}", f"{min(rates):,.0f} to {max(rates):,.0f}", *(f"{middle([it[own] for it in runs]):.2f}" for own in ("half", "most"))])
    return table(["connections", "served by", "requests a second", "in single runs", "half within, ms", "99 of 100 within, ms"], rows)


def told_faults(found):
    faults = sum(len(it["faults"]) for by in found.values() for runs in by.values() for it in runs)
    return "In all runs `wrk` told of no reply but 200 and of no connection that failed." if not faults else f"In {faults} runs `wrk` told of replies other than 200 or of connections that failed."


def serving_page(found):
    return {"serving": served_table(found), "faults": told_faults(found)}


def waiting_page(found):
    return {"waiting": served_table(found), "waiting_faults": told_faults(found)}


# ---- documents made to be slow

def slowest(found):
    """The families, those first that took longest at any length."""
    return sorted(found, key=lambda name: max(it[1] for it in found[name]), reverse=True)


def hostile_plot(found):
    ordered = slowest(found)
    lines = [Line(name if n < SLOWEST else "", [(it[0], max(it[1], 0.01)) for it in found[name]], n if n < SLOWEST else None, stopped=found[name][-1][3]) for n, name in enumerate(ordered)]
    lines = lines[SLOWEST:] + lines[:SLOWEST]
    if len(ordered) > SLOWEST:
        lines.append(Line(f"{len(ordered) - SLOWEST} others", [], None))
    return plot("Processor time for documents made to be slow", Scale("bytes of the document", [it[0] for it in max(found.values(), key=len)], True),
                Scale("processor seconds (open: refused for its work)", powers([y for line in lines for _, y in line.points]), True), lines)


def together(part):
    many = part.get("together", 1)
    return f"; {many} families were measured at a time" if many > 1 else ""


def hostile_page(found):
    lengths = [it[0] for it in max(found.values(), key=len)]
    ordered = slowest(found)
    told, others = ordered[:20], ordered[20:]
    rows = [[name, *(f"{it[1]:.2f}" + (" refused" if it[3] else "") for it in found[name]), f"{max(it[2] for it in found[name]):,.0f}"] for name in told]
    rest = f"The {len(others)} others took at most {max(it[1] for name in others for it in found[name]):.2f} seconds at each length." if others else ""
    refused = sum(any(it[3] for it in found[name]) for name in found)
    return {"hostile": table(["", *(f"{it:,} bytes" for it in lengths), "most MB"], rows), "others": f"{rest} {refused} families were refused for their work at some length.".strip(), "families": str(len(found))}


def memory_plot(found):
    lines = [Line(name, [tuple(it) for it in line], n) for n, (name, line) in enumerate(found.items())]
    points = [it for line in lines for it in line.points]
    return plot("Memory of the gateway while it serves", Scale("requests served", evenly([x for x, _ in points])), Scale("megabytes in memory", evenly([y for _, y in points])), lines)


def memory_page(found):
    rows = [[name, f"{line[0][1]:.1f}", f"{line[1][1]:.1f}", f"{line[-1][1]:.1f}", f"{line[-1][0]:,}"] for name, line in found.items()]
    return {"memory": table(["", "MB at the start", "after the first two seconds", "at the end", "requests served by then"], rows)}


# ---- the whole

def about(part):
    """With which program a part was measured, and where: parts may be measured apart from each other."""
    it = part["machine"]
    return (f"with Tellcrock's {it['versions']['Tellcrock']} on {it['count']} processors ({it['processor']}), {it['memory']:.0f} GB of memory, {it['kernel']}; {it['day']}; other programs took {it['busy']:.0%} of the processors when this part began, and the load was {it['load']:.1f}"
            + ("; a short trial, whose figures say little" if part["quick"] else ""))


def compared(measures):
    """What Tellcrock was compared with in any part, in the version that was measured last there."""
    versions = {name: it for part in measures.values() for name, it in part["machine"]["versions"].items()}
    return "; ".join(f"{name} ({it})" for name, it in versions.items() if name != "Tellcrock")


PAGE = """# Performance

Written by `checks/figures.py`, which measures all of it anew where it is run; every single run is in [figures/measures.json](figures/measures.json). Nothing on this page is
proved, and another machine gives other figures.

- Compared with: {compared}.
- Each part says with which program, named by the beginning of its sum, on what machine and on which day it was measured. What is compared ran by turns, at the same priority, on the same processors.

## Pricing an operation

![Processor microseconds for an operation by its length](figures/pricing.svg)

Measured {about_pricing}.

- **Tellcrock** goes from the bytes of the request's body to the reservation in the client's account: it parses the operation, validates it, plans it, works out its bound and reserves it.
  What is told is a `replay` that begins many requests, less one that begins one, for each; reading the line of its script and writing that of its answer are in it.
- **graphql-js** and **gqlparser** parse the text of the operation and validate it, and price nothing. What is told is what a second of it used, for each operation, after a second that isn't counted.
- All have the same five operations and the same schema of 500 types (`crates/price_bench/data`).

Processor microseconds of an operation, the middle of five runs (the least in brackets). Garbage collectors and compilers that work beside the program are in them:

{warm}

The same runs by the clock on the wall:

{warm_clock}

And cold: processor milliseconds of a whole process that starts, reads the schema and does the operation once.

{cold}

## Serving

![Requests a second by connections, Tellcrock and nginx](figures/serving.svg)

Measured {about_serving}.

- The load is `wrk` with two threads (one for one connection), over loopback, for two seconds a run, the middle of five runs by turns. The request asks for `{{ user {{ id }} }}`; the upstream is an nginx of four
  processes that answers each request with the same 30 bytes. The load, the upstream and who serves share the processors.
- **Tellcrock**, with `--idle 1000`, reads the request, prices the operation, reserves the price, opens a connection to the upstream, measures its reply value by value, settles, and answers.
- **nginx** as a proxy reads the request, opens a connection to the upstream likewise, and hands the reply on; it prices and measures nothing. `kept` is an nginx that keeps its connections to the
  upstream, which Tellcrock doesn't: it is the strongest of those that are compared. `no proxy` is the upstream itself.
- Tellcrock has one thread a worker, nginx one thread a process; both leave it to the system which of them takes a connection.

{serving}

{faults}
{section_waiting}
## Documents that are made to be slow

![Processor seconds by length, of the slowest families](figures/hostile.svg)

Measured {about_hostile}.

`checks/hostile_documents.py` makes {families} families of documents that cost much for their length, up to the longest body that the gateway takes, 262,144 bytes. Told are processor seconds of `price --most-work 3000000`, of one run, less those of a document that costs nothing by the same schema{together}.
A document that takes more steps is refused; in the plot an open mark is such a run. Lines at 0.01 seconds are at or below it. Those that took longest at any length are told; what the bound is good for, and what happens without it, is in [operating.md](operating.md#behind-a-proxy).

{hostile}

{others}

## Memory

![Megabytes held by requests served](figures/memory.svg)

Measured {about_memory}. The load and the upstream are those of the serving above; told is what the process has in memory (its resident set).

{memory}
"""

# The section of a part that may not have been measured.
WAITING = """
### Before an upstream that takes its time

![Requests a second by connections, before an upstream of 50 ms](figures/waiting.svg)

Measured {about_waiting}. The upstream is two processes in Python that answer each request 50 milliseconds after it. A worker of Tellcrock waits for the reply, so a worker has at most 20 requests a
second, whatever waits; nginx has as many requests under way as there are connections. Runs in which nobody was answered, since the workers were still at the requests of the run before, are left out: one
worker has 256 of them for 13 seconds, a run takes two.

{waiting}

{waiting_faults}
"""

PARTS = {"pricing": (pricing_plot, pricing_page), "serving": (serving_plot, serving_page), "waiting": (waiting_plot, waiting_page), "hostile": (hostile_plot, hostile_page), "memory": (memory_plot, memory_page)}


def write(measures, docs):
    """Writes the plot of each part that was measured, and the page where all were."""
    words = {}
    for name, part in measures.items():
        draw, tell = PARTS[name]
        with open(os.path.join(docs, "figures", name + ".svg"), "w") as file:
            file.write(draw(part["found"]))
        words.update(tell(part["found"]), **{"about_" + name: about(part)})
        if name == "hostile":
            words["together"] = together(part)
    if set(PARTS) - {"waiting"} <= set(measures):
        words["section_waiting"] = WAITING.format(**words) if "waiting" in measures else ""
        with open(os.path.join(docs, "performance.md"), "w") as file:
            file.write(PAGE.format(compared=compared(measures), **words))
        print(f"{docs}/performance.md is written")
