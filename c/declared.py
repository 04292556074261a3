#!/usr/bin/env python3
"""Compares what C declares with what the proved libraries export: each call, each struct and each number.

No compiler sees both sides: where they differ, a call does what nobody proved. So this script reads the sources of
crates/edfvd_c and crates/edfvd_ask_c, and edfvd.h, edfvd.c and edfvd_ask.c, and reports each difference, also of a limit that a
sentence of edfvd.h states, which may come from a definition or a function of another crate. The numbers of statuses and events
stand in edfvd.h: the contracts (specs/Status.antt, specs/EventNumbers.antt) and the proved sources must have them as they are there,
and the words of edfvd_word and Python's Status the statuses. With the word `offsets` it writes C text instead, which a compiler
refuses unless each struct of edfvd.h is laid out as the library's.

usage: declared.py [offsets]
"""

from __future__ import annotations

import re
import sys
from pathlib import Path

HERE = Path(__file__).resolve().parent
CRATES = [HERE.parent / "crates" / name / "src" for name in ("edfvd_c", "edfvd_ask_c")]

# The structs that cross. CScaleRange in Rattle is edfvd_scale_range in C.
STRUCTS = {
    "CTask", "CTest", "CDemandTask", "CDemandTest", "CAnswer", "CLook", "CNext", "CPending", "CScale", "CRow", "CVerdict", "CUnfit", "CWatch", "CLate", "CBudgets",
    "CScaleRange",
}


def in_c(name: str) -> str:
    """The name in C of a struct that crosses."""
    return "edfvd" + re.sub(r"([A-Z])", r"_\1", name[1:]).lower()


# The struct that C holds and never writes: a mark and a pointer, with which edfvd_handle of edfvd.h begins.
HANDLE, HANDLES = "Handle", ("raw_handle", "edfvd_handle")
NUMBERS = {"u8": "uint8_t", "u32": "uint32_t", "u64": "uint64_t", "usize": "size_t", "bool": "bool"}
C_TYPES = {**NUMBERS, **{name: in_c(name) for name in STRUCTS}, HANDLE: "raw_handle"}
BYTES = {"uint32_t": 4, "uint64_t": 8}


def passed(kind: str) -> list[str]:
    """How C passes a parameter of this type: a slice as a pointer and a length, the allocator not at all."""
    if kind == "Global":
        return []
    if kind == "&[&[u8]]":
        return ["const raw_word *", "size_t"]
    if found := re.fullmatch(r"&(mut )?\[(\w+)\]", kind):
        return [f"{'' if found[1] else 'const '}{C_TYPES[found[2]]} *", "size_t"]
    if found := re.fullmatch(r"&mut \[(\w+); \d+\]", kind):
        return [f"{C_TYPES[found[1]]} *"]
    if found := re.fullmatch(r"&(mut )?(\w+)", kind):
        return [f"{'' if found[1] else 'const '}{C_TYPES[found[2]]} *"]
    return [C_TYPES[kind]]


def exported(text: str) -> dict[str, tuple[list[str], str]]:
    """The exports, each with its parameters and its result as C has them."""
    calls = {}
    for name, parameters, result in re.findall(r'pub extern "C" fn (\w+)\((.*?)\)\s*->\s*(\w+)', text, re.S):
        kinds = [part.split(":", 1)[1].strip() for part in re.split(r",\s*(?=\w+:|$)", parameters.strip()) if part]
        calls[name] = ([word for kind in kinds for word in passed(kind)], C_TYPES[result])
    return calls


def declared(text: str) -> dict[str, tuple[list[str], str]]:
    """The same, as the guards declare them."""
    calls = {}
    for result, name, parameters in re.findall(r"^extern (\w+) (edfvd_raw_\w+)\((.*?)\);", text, re.S | re.M):
        kinds = [re.sub(r"\s*\b\w+$", "", " ".join(part.split())) for part in parameters.split(",")]
        calls[name] = (kinds, result)
    return calls


def rattle_structs(text: str) -> dict[str, list[tuple[str, str]]]:
    """The fields of each struct that crosses, with their types in C."""
    structs = {}
    for name, fields in re.findall(r"#\[repr\(C\)\].*?pub struct (\w+) \{(.*?)\n\}", text, re.S):
        if name in STRUCTS:
            pairs = re.findall(r"^\s*pub (\w+): (\w+),", fields, re.M)
            structs[in_c(name)] = [(field, NUMBERS[kind]) for field, kind in pairs]
    return structs


def c_structs(text: str) -> dict[str, list[tuple[str, str]]]:
    """The fields of each struct, as edfvd.h declares them."""
    structs = {}
    for body, name in re.findall(r"typedef struct \w+ \{(.*?)\n\} (\w+);", text, re.S):
        plain = re.sub(r"/\*.*?\*/", "", body, flags=re.S)
        structs[name] = [
            (field.strip(), kind) for kind, fields in re.findall(r"(\w+_t) ([\w, ]+);", plain) for field in fields.split(",")
        ]
    return structs


def rattle_handle(text: str, name: str) -> list[tuple[str, str]]:
    """The fields of the struct that C holds, with those of the block in it. An allocator has no bytes."""
    found = re.search(rf"#\[repr\(C\)\][^{{]*?pub struct {name} \{{(.*?)\n\}}", text, re.S)
    fields = []
    for field, kind in re.findall(r"^\s*(?:pub )?(\w+): ([*\w ]+),", found[1] if found else "", re.M):
        if kind == "Block":
            fields += rattle_handle(text, kind)
        elif kind != "Global":
            fields.append((field, "void *" if kind == "*mut u8" else NUMBERS[kind]))
    return fields


def c_handle(text: str, name: str) -> list[tuple[str, str]]:
    """The fields of the handle, as C declares them."""
    found = re.search(rf"struct {name} \{{(.*?)\}}", text, re.S)
    return [(field, kind) for kind, field in re.findall(r"(\w+_t|void \*)\s?(\w+);", found[1] if found else "")]


def handle_faults(rattle: str, c_text: str) -> list[str]:
    """The handle, if it does not begin alike on the two sides."""
    fields = rattle_handle(rattle, HANDLE)
    return [f"{twin}: {fields} in Rattle, {c_handle(c_text, twin)} in C" for twin in HANDLES
            if not fields or c_handle(c_text, twin)[: len(fields)] != fields]


def offsets(fields: list[tuple[str, str]]) -> tuple[list[tuple[str, int, int]], int]:
    """The place and size of each field of a struct with `repr(C)`, and the size of the struct."""
    places, at, most = [], 0, 1
    for field, kind in fields:
        size = BYTES[kind]
        at = (at + size - 1) // size * size
        places.append((field, at, size))
        at, most = at + size, max(most, size)
    return places, (at + most - 1) // most * most


def numbers(text: str) -> dict[str, dict[str, str]]:
    """The numbers that cross, by kind and by their names in C: statuses, events and the rules that a row breaks."""
    def shouted(name: str) -> str:
        return re.sub(r"(?<=[a-z])(?=[A-Z])", "_", name).upper()

    constants = dict(re.findall(r"^(?:pub )?const (\w+): u32 = (\d+);", text, re.M))
    rules = re.findall(r"^        (?:None|Some\(Rule::(\w+)[^)]*\)) => \((\d), ", text, re.M)
    events = {"KEPT", "DROPPED", "HELD", "GIVEN", "MORE", "DONE", "STOP", "OVER", "IDLE"}
    whys = {f"WHY_{shouted(name)}": number for name, number in re.findall(r"Why::(\w+) => (\d+),", text)}
    return {
        "status": {name: number for name, number in constants.items() if name not in events},
        "event": {name: number for name, number in constants.items() if name in events},
        "why": whys,
        "level": {shouted(name): number for number, name in re.findall(r"^        (\d) => Level::(\w+),", text, re.M)},
        "rule": {f"RULE_{shouted(name or 'None')}": number for name, number in rules},
    }


# What bounds a call, as its source and the sentence of edfvd.h have it.
LIMITS = {
    "tasks of a set": (r"given\.len\(\) > (\d+) \{\s+return Err\(NoSet", r"the set has more than (\d+) tasks"),
    "tasks for edfvd_demand": (r"fn test_demand.*?given\.len\(\) > (\d+)", r"an array of 1 to (\d+) elements"),
    "processors": (r"\(1\.\.=(\d+)\)\.contains\(&processors\)", r"which is 1 to (\d+), by first fit"),
    "random sets": (r"\(1\.\.=([\d_]+)\)\.contains\(&sets\)", r"`sets` is 1 to (\d+)"),
    "least tasks of a random set": (r"\((\d+)\.\.=\d+\)\.contains\(&tasks\)", r"`tasks` (\d+) to \d+"),
    "most tasks of a random set": (r"\(\d+\.\.=(\d+)\)\.contains\(&tasks\)", r"`tasks` \d+ to (\d+)"),
    "rows to judge": (r"given\.len\(\) > ([\d_]+) \{\s+return Err\(status::FULL", r"the oldest first, at most (\d+)"),
    "a scale": (r"q > 1 << (\d+)", r"1 <= p <= q <= 2\^(\d+)"),
    "runs that are kept": (r"const KEPT: usize = (\d+);", r"it keeps the latest (\d+) runs of equal rows alone"),
    "rows without an end": (r"rule, 1 << (\d+), rows\)", r"Events are EDFVD_FULL after 2\^(\d+) rows"),
    "words of a command": (r"MOST_WORDS = (\d+)", r"more than (five) words"),
}


# What bounds a call in a definition or a function below edfvd_c: the file in crates, its text, and the sentences of edfvd.h.
DEFINED = {
    "the hyperperiod": ("mc_model/specs/Loads.antt", r"most_lcm = 2 \^ (\d+)", r"exceeds? 2\^(\d+)(?: ticks|, either)"),
    "the hyperperiod for edfvd_demand": ("demand_test/specs/DemandSet.antt", r"most_lcm = (\d+)", r"or ([\d,]+) for edfvd_demand"),
    "a percentage": ("study/specs/Stretch.antt", r"\(s ≤ (\d+)\) ×", r"greatest percentage, up to (\d+), at which"),
    "a stretched budget": ("study/specs/Stretch.antt", r"\* s / 100\) (\d+)\)", r"and at most (\d+)\. EDFVD_OK"),
    "releases of a task": ("mode_core/specs/Events.antt", r"nat_le \(2 \^ (\d+) - 1\) \(released_so_far",
                           r"(?:at most|release after) 2\^(\d+) - 1 (?:releases|of them)"),
    "equal rows of edfvd_scheduler_rows": ("edfvd_c/specs/Scheduler/Latest.antt", r"times ≡ 2 \^ (\d+) - 1",
                                           r"or 2\^(\d+) - 1 if there are more"),
    "rows of a monitor": ("trace_judge/src/monitor.rt", r"MOST_ROWS: u64 = 1 << (\d+);", r"EDFVD_FULL for more than 2\^(\d+) rows"),
    "pending jobs with memory": ("trace_judge/src/queue.rt", r"OPENED_FOR: usize = (\d+);", r"opened with memory for (two) pending jobs"),
}
WORDS = {"two": "2", "five": "5"}


def limit_faults(sources: str, header: str) -> list[str]:
    """The limits that are not found once on each side, or differ, and the arrays of a fixed length that do."""
    faults = []
    limits = [(name, sources, ours, theirs) for name, (ours, theirs) in LIMITS.items()]
    limits += [(name, (HERE.parent / "crates" / file).read_text(), ours, theirs) for name, (file, ours, theirs) in DEFINED.items()]
    for name, text, ours, theirs in limits:
        found = [sorted(set(re.findall(pattern, side, re.S))) for pattern, side in ((ours, text), (theirs, header))]
        plain = [[WORDS.get(number, re.sub("[_,]", "", number)) for number in numbers] for numbers in found]
        if plain[0] != plain[1] or len(plain[0]) != 1:
            faults.append(f"limit of {name}: {plain[0]} in the sources, {plain[1]} in edfvd.h")
    # An event of one tick makes at most one row more than a set has tasks, of which a set has at most 128.
    most = re.findall(LIMITS["tasks of a set"][0], sources)
    if [int(number) - 1 for number in re.findall(r"so at most (\d+): if you read", header)] != [int(number) for number in most[:1]]:
        faults.append(f"rows of an event: edfvd.h has another number than that of the {most[:1]} tasks of a set, and one")
    # At speed 4/3 the test admits each set whose loads are at most 1: in millionths, rounded up.
    if re.findall(r"the speed is at most (\d+) \(4/3", header) != [str(-(-4 * 10**6 // 3))]:
        faults.append("the speed in edfvd.h is not 4/3 in millionths, rounded up")
    lengths = [sorted(re.findall(r"(\w+): &mut \[\w+; (\d+)\]", sources)),
               sorted(re.findall(r"uint\d+_t (\w+)\[(\d+)\]", header))]
    if lengths[0] != lengths[1] or not lengths[0]:
        faults.append(f"arrays: {lengths[0]} in Rattle, {lengths[1]} in C")
    return faults


def status_faults(header: str, guards: str, python: str) -> list[str]:
    """The statuses of edfvd.h that edfvd_word or Python has not, or has otherwise, and those that edfvd.h has not."""
    body = re.search(r"typedef enum edfvd_status \{(.*?)\n\} edfvd_status;", header, re.S)
    statuses = re.findall(r"^    EDFVD_(\w+) = (\d+)", body[1] if body else "", re.M)
    cases = re.findall(r'case EDFVD_(\w+): return "([^"]+)";', guards)
    members = re.search(r"class Status\(Named\):(.*?)\n\n\n", python, re.S)
    known = re.findall(r"^    (\w+) = (\d+)$", members[1] if members else "", re.M)
    faults = []
    if not statuses or len({number for _, number in statuses}) != len(statuses):
        faults.append("two statuses of edfvd.h have one number, or there is none")
    for name in sorted({name for name, _ in statuses} ^ {name for name, _ in cases}):
        faults.append(f"status {name}: edfvd.h and edfvd_word do not both have it")
    words = [word for _, word in cases]
    faults += [f"status {name}: another status has its words, {word}" for name, word in cases if words.count(word) > 1]
    for name, number in sorted({pair for pair in statuses if pair[0] != "OK"} ^ set(known)):
        faults.append(f"status {name} = {number}: edfvd.h and Status of Python do not both have it")
    return faults


def contract_faults(kind: str, definitions: str, code: str) -> list[str]:
    """The numbers of this kind that the contracts of edfvd_c, or its code, lack or have otherwise."""
    of_code = numbers((CRATES[0] / code).read_text())[kind]
    of_contracts = dict(re.findall(r"^(\w+) = (\d+)$", (CRATES[0].parent / "specs" / definitions).read_text(), re.M))
    return [f"{kind} {name}: {of_contracts.get(name)} in the contracts, {of_code.get(name)} in the code"
            for name in sorted(of_contracts.keys() | of_code.keys()) if of_contracts.get(name) != of_code.get(name)]


def main() -> int:
    if sys.argv[1:] not in ([], ["offsets"]):
        print(__doc__.rsplit("\n\n", 1)[1], end="", file=sys.stderr)
        return 2
    rattle = "".join(path.read_text() for crate in CRATES for path in sorted(crate.rglob("*.rt")))
    guards = "".join((HERE / name).read_text() for name in ("edfvd.c", "edfvd_ask.c"))
    header = (HERE / "edfvd.h").read_text()
    fields = rattle_structs(rattle)
    if sys.argv[1:] == ["offsets"]:
        print('#include "edfvd.h"')
        for name, pairs in fields.items():
            places, size = offsets(pairs)
            print(f'_Static_assert(sizeof({name}) == {size}, "{name}");')
            for field, at, wide in places:
                print(f'_Static_assert(offsetof({name}, {field}) == {at}, "{name}.{field}");')
                print(f'_Static_assert(sizeof((({name} *)0)->{field}) == {wide}, "{name}.{field}");')
        return 0

    faults = []
    ours, theirs = exported(rattle), declared(guards)
    faults += [f"{name}: {ours.get(name)} is exported, {theirs.get(name)} declared"
               for name in sorted(ours.keys() | theirs.keys()) if ours.get(name) != theirs.get(name)]
    of_header = c_structs(header)
    faults += [f"{name}: {pairs} in Rattle, {of_header.get(name)} in C" for name, pairs in fields.items() if of_header.get(name) != pairs]
    faults += handle_faults(rattle, guards + header)
    words = dict(re.findall(r"\bEDFVD_(\w+) = (\d+)", header)) | dict(re.findall(r"#define EDFVD_(\w+) (\d+)u", header))
    known = numbers(rattle)
    faults += [f"{kind} {name}: {number} in Rattle, {words.get(name)} in C"
               for kind, names in known.items() for name, number in names.items() if words.get(name) != number]
    faults += status_faults(header, guards, (HERE.parent / "python" / "edfvd" / "_errors.py").read_text())
    faults += contract_faults("status", "Status.antt", "status.rt") + contract_faults("event", "EventNumbers.antt", "event_numbers.rt")
    faults += limit_faults(rattle + guards, re.sub(r"\s+\*? *", " ", header))
    if not ours or len(fields) != len(STRUCTS) or not all(known.values()):
        faults.append("an export, a struct or a number was not found")
    for fault in faults:
        print(f"declared.py: {fault}", file=sys.stderr)
    count = sum(len(names) for names in known.values())
    print(f"{len(ours)} calls, {len(fields) + 1} structs and {count} numbers: {len(faults)} differ")
    return 1 if faults else 0


if __name__ == "__main__":
    sys.exit(main())
