"""The tools, each with its second reader and the checks of its own.

A tool that comes gets a line here. `second` answers words over files as (status, printed text), or None where it has no
answer; `agrees` says whether an answer (status, printed bytes) is that; `jobs` gives the checks that no case has. Where the
spelling of the file that a tool writes is open, `writes` gives for words over files its name, and a function from its bytes
to what is wrong with them; `leaves` does so, beside what is printed, for the file that a tool leaves where a net is stuck. `tells` gives
for words, files, the bytes that were written and what was printed, what of this isn't as the bytes have it.
"""

from typing import Callable, NamedTuple

from acceptance.tools import (
    answers,
    area,
    asimut,
    boog,
    boom,
    checked_layouts,
    checking_orders,
    cougar,
    druc,
    flatbeh,
    flow,
    flow_limits,
    fmi,
    gen,
    loon,
    lvx,
    maze,
    nero,
    net_jobs,
    ocp,
    proof,
    rip,
    s2r,
    scapin,
    second_router,
    syf,
)


class Tool(NamedTuple):
    second: Callable
    agrees: Callable
    jobs: Callable
    writes: Callable | None = None
    leaves: Callable | None = None
    tells: Callable | None = None


def asimut_jobs(program, seed, times):
    """Netlists, which take the longest, and then sources."""
    yield from net_jobs.jobs(program, seed, times)
    yield from asimut.jobs(program, seed, times)


def flow_jobs(program, seed, times):
    """Limits and orders, layouts over rows, and then sources."""
    yield from flow_limits.jobs(program)
    yield from second_router.jobs(seed, times)
    yield from maze.jobs(program, seed, times)
    yield from flow.jobs(program, seed, times)


def lvx_jobs(program, seed, times):
    """Layouts that all four tools check, which take the longest, the orders of their refusals, and then netlists."""
    yield from checked_layouts.jobs(program, seed, times)
    yield from checking_orders.jobs(program)
    yield from lvx.jobs(program, seed, times)


TOOLS = {
    "asimut": Tool(asimut.second, answers.agrees, asimut_jobs),
    "boom": Tool(boom.second, boom.agrees, boom.jobs, boom.writes),
    "boog": Tool(boog.second, boog.agrees, boog.jobs, boog.writes, tells=boog.tells),
    "cougar": Tool(cougar.second, answers.agrees, cougar.jobs, cougar.writes),
    "flow": Tool(flow.second, flow.agrees, flow_jobs, flow.writes, flow.leaves, flow.tells),
    "gen": Tool(gen.second, gen.agrees, gen.jobs, gen.writes, gen.leaves, gen.tells),
    "loon": Tool(loon.second, loon.agrees, loon.jobs, loon.writes),
    "ocp": Tool(ocp.second, ocp.agrees, ocp.jobs, ocp.writes),
    "nero": Tool(nero.second, nero.agrees, nero.jobs, nero.writes, nero.leaves),
    "lvx": Tool(lvx.second, lvx.agrees, lvx_jobs),
    "druc": Tool(druc.second, answers.agrees, druc.jobs),
    "proof": Tool(proof.second, proof.agrees, proof.jobs),
    "flatbeh": Tool(flatbeh.second, flatbeh.agrees, flatbeh.jobs, flatbeh.writes),
    "s2r": Tool(s2r.second, answers.agrees, s2r.jobs, s2r.writes),
    "syf": Tool(syf.second, answers.agrees, syf.jobs, syf.writes),
    "scapin": Tool(scapin.second, answers.agrees, scapin.jobs, scapin.writes),
    "fmi": Tool(fmi.second, answers.agrees, fmi.jobs, fmi.writes),
    "rip": Tool(rip.second, rip.agrees, rip.jobs, rip.writes, rip.leaves, rip.tells),
    "area": Tool(area.second, answers.agrees, area.jobs),
}
