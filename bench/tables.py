"""The tables of what is measured: each a name, what its rows are over, and rows. Nothing of this is proved."""
import os
from collections import namedtuple

import others
import scripts
import wire
from timing import Row

KINDS = ("plain", "fast", "lane")
CONTEXTS = (1, 4, 16, 64, 256, 1024)
SHARED = 8

# What is measured with: the program, the one that measures, and the kernel's codec, of which the last two may be missing.
Programs = namedtuple("Programs", "program bench kernel")
# One content: raw pictures in a file, how many, and their stream.
Content = namedtuple("Content", "name raw stream count")
# `unit` is what the counts of the rows count.
Table = namedtuple("Table", "name content unit rows")


def kernel_rows(programs, content, way):
    """The row of the kernel's codec, which reads a stream of its own."""
    if programs.kernel is None:
        return []
    given = content.raw
    if way == "decode":
        given = content.stream + ".kernel"
        others.written([programs.kernel, "encode"], given, content.raw)
    return [Row(others.KERNEL_NAME, [programs.kernel, way], given, content.count)]


def coding(programs, content):
    """The tables of one content: engines one by one, with one worker, beside what else there is."""
    for way, given in (("encode", content.raw), ("decode", content.stream)):
        rows = kernel_rows(programs, content, way)
        if programs.bench is not None:
            rows += [Row(f"{kind} engine", [programs.bench, kind, way, "--workers", "1"], given, content.count) for kind in KINDS]
        if way == "encode":
            rows += others.encoding(content.raw, content.count)
        else:
            rows += others.decoding(content.raw, content.count, content.stream)
        yield Table(f"{way}: engines", content.name, "pictures", rows)


def beside_codec(programs, content):
    """The tables of the commands beside the codec alone, with lane engines; and of the program over its workers."""
    for way, given in (("encode", content.raw), ("decode", content.stream)):
        if programs.bench is not None:
            alone = Row(f"codec-{way}", [programs.bench, "lane", f"codec-{way}"], given, content.count)
            lanes = [Row(f"{way} --workers {n}, lane engines", [programs.bench, "lane", way, "--workers", str(n)], given, content.count)
                     for n in (1, 4)]
            yield Table(f"{way}: beside the codec alone", content.name, "pictures", [alone, *lanes])
        rows = [Row(f"{way} --workers {n}", [programs.program, way, "--workers", str(n)], given, content.count) for n in (1, 2, 4)]
        yield Table(f"{way}: over workers", content.name, "pictures", rows)


def starting(programs, folder):
    """The table of starts: inputs of nothing and of one picture."""
    raw, stream = os.path.join(folder, "one.raw"), os.path.join(folder, "one.stream")
    others.written([programs.program, "make"], raw)
    others.written([programs.program, "encode"], stream, raw)
    inputs = {"encode": (("nothing", None), ("one picture", raw)), "decode": (("nothing", None), ("one frame", stream))}
    rows = [Row("true", ["true"], None, 1)]
    rows += [Row(f"{way} of {name}", [programs.program, way, "--workers", "1"], given, 1)
             for way, named in inputs.items() for name, given in named]
    return Table("starts", "make", "runs", rows)


def sharing(programs, count):
    """The table of eight encoders of one device, over its workers; and what making their pictures takes."""
    if programs.bench is None:
        return
    words = ["share", "--contexts", str(SHARED), "--pictures", str(count)]
    rows = [Row(f"share --workers {n}", [programs.bench, "lane", *words, "--workers", str(n)], None, SHARED * count)
            for n in range(1, 5)]
    rows.append(Row("make of as many pictures", [programs.program, "make", "--pictures", str(SHARED * count)], None, SHARED * count))
    yield Table("share: eight streams, lane engines", "make", "pictures", rows)


def contexts(programs, folder):
    """The tables of a line's cost: the same number of jobs, spread over some contexts that are there and warm."""
    for place, kind in enumerate(scripts.KINDS):
        rows = []
        for number in CONTEXTS:
            begun, later = scripts.opened(kind, number), scripts.jobs(kind, number, scripts.STEPS)
            command = [programs.program, "script", "--slots", "1024"]
            paths = [os.path.join(folder, f"{part}_{place}_{number}.script") for part in ("begun", "whole")]
            before = Row("", command, scripts.written(begun, paths[0]))
            rows.append(Row(f"{number:,} contexts", command, scripts.written(begun + later, paths[1]), len(later), before))
        yield Table(f"contexts: {kind}", "", "lines", rows)


def calling(programs, folder):
    """The table of calls: a line of a script, and a message of the wire, in jobs that copy 16 bytes."""
    begun = scripts.written(scripts.copier(), os.path.join(folder, "copier.script"))
    lines = scripts.copies()
    script = scripts.written(scripts.copier() + lines, os.path.join(folder, "copies.script"))
    served, opened = [programs.program, "wire"], wire.written(wire.opened(0), os.path.join(folder, "opened"))
    messages = wire.copies(os.path.join(folder, "copies"))
    return Table("calls: jobs of 16 bytes", "", "calls", [
        Row("script", [programs.program, "script"], script, len(lines), Row("", [programs.program, "script"], begun)),
        Row("wire", served, messages, 6 * wire.ROUNDS, Row("", served, opened))])


def serving(programs, content, folder):
    """The table of pictures over the wire, beside `encode`."""
    pictures = wire.pictures(content.raw, os.path.join(folder, "pictures"))
    return Table("wire: pictures encoded", content.name, "pictures", [
        Row("encode --workers 1", [programs.program, "encode", "--workers", "1"], content.raw, content.count),
        Row("wire", [programs.program, "wire"], pictures, content.count)])
