"""Files as the programs of share/ read them: each function gives what a file holds, or raises Trouble with one line on what is wrong with it."""

import argparse
import os
import pathlib
import sys

from . import ap, cellcheck, extraction, fsm_oracle, models, pat_oracle, real, vbe_oracle, vhdl_reader, vst

sys.setrecursionlimit(100000)


class Trouble(Exception):
    """What is printed behind the program's name; the program ends with status 1."""


def words(documentation, *arguments):
    """The words of a program, whose documentation is what --help prints. An argument is its names and what argparse knows of it."""
    first, _, rest = documentation.strip().partition("\n\n")
    reader = argparse.ArgumentParser(description=first, epilog=rest.strip() or None, formatter_class=argparse.RawDescriptionHelpFormatter)
    for names, knows in arguments:
        reader.add_argument(*names, **knows)
    return reader.parse_args()


def argument(*names, **knows):
    return names, knows


LIBRARY = argument("library", metavar="LIBRARY", help="the folder of the library whose cells it has")


def run(main, status=1):
    """Runs a program: trouble is one line on standard error and this status; a reader that goes away ends it quietly."""
    try:
        main()
        sys.stdout.flush()
    except Trouble as trouble:
        print(f"{pathlib.Path(sys.argv[0]).name}: {trouble}", file=sys.stderr)
        sys.exit(status)
    except BrokenPipeError:
        os.dup2(os.open(os.devnull, os.O_WRONLY), sys.stdout.fileno())


def held(path):
    """The bytes of a file, or of standard input where it is called `-`."""
    try:
        return sys.stdin.buffer.read() if str(path) == "-" else pathlib.Path(path).read_bytes()
    except OSError as error:
        raise Trouble(f"{path}: {error.strerror}") from None


def text_of(path):
    return held(path).decode(errors="replace")


def write(path, text):
    """Writes a file whole, by way of one beside it."""
    beside = pathlib.Path(f"{path}.part")
    try:
        beside.write_text(text)
        beside.replace(path)
    except OSError as error:
        beside.unlink(missing_ok=True)
        raise Trouble(f"{path}: {error.strerror}") from None


def told(path, refused):
    """What a reader says of a file, in the words of the program: `FILE:LINE: FAULT`, or a limit."""
    said = str(refused).removeprefix("input ")
    line, _, fault = said.partition(" ")
    return Trouble(f"{path}:{line}: {fault}" if line.isdigit() else f"{path}: {said}")


def read_by(reader, path, *more):
    try:
        return reader(held(path), *more)
    except vbe_oracle.Ring:
        raise Trouble(f"{path}: its signals or instances read each other in a ring") from None
    except (ap.Refused, vhdl_reader.Refused) as refused:
        raise told(path, refused) from None


def layout(path):
    return read_by(ap.read, path)


def source(path):
    """The machine of a data-flow text."""
    return read_by(vbe_oracle.machine, path)


def states(path):
    """An fsm text that passes its checks, with its statements."""
    return read_by(fsm_oracle.checked, path)


def netlist(path, of_name):
    return read_by(vst.netlist, path, of_name)


def patterns(path):
    """Columns and patterns."""
    return read_by(lambda data: pat_oracle.PatternReader(data).file(), path)


def table(path):
    """A table that leads to real units."""
    try:
        return real.read(held(path))
    except ValueError as fault:
        raise Trouble(f"{path}:{fault}") from None


def folder(path):
    try:
        return cellcheck.folder(path)
    except OSError as error:
        raise Trouble(f"{path}: {error.strerror}") from None


def cells(path):
    """The cells of a library with their layouts, by their names."""
    try:
        return cellcheck.cells(folder(path), False)
    except ap.Refused as refused:
        raise Trouble(f"{path}: {refused}") from None


def library(path):
    """The models of a library's cells, by their names."""
    try:
        return models.models_of(tuple(sorted(folder(path).items())))
    except ap.Refused as refused:
        raise Trouble(f"{path}: {refused}") from None


def flat(figure, of_name, path):
    """All shapes of a layout, and which of them are joined."""
    try:
        return extraction.flat_of(figure, of_name)
    except extraction.Refused as refused:
        raise told(path, refused.line.replace(":", "", 1)) from None


def check_cells(figure, of_name, path):
    """That the library has the cells of all instances."""
    unknown = next((i.model for i in extraction.instances_of(figure) if i.model not in of_name), None)
    if unknown is not None:
        raise Trouble(f"{path}:1: unknown cell {unknown}")


def netlist_of(figure, of_shapes, of_name, path):
    """The netlist that a layout gives."""
    try:
        return extraction.extracted(figure, of_shapes, of_name)
    except extraction.Refused as refused:
        raise told(path, refused.line.replace(":", "", 1)) from None
