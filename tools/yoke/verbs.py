"""What each verb does, and the command line."""

import argparse
import sys
import traceback
from pathlib import Path

from .account import refusal_lines, report, seen_lines
from .checks import STORED, UNORDERED, byte_name, check, check_limits, check_section, describe, plural
from .drawings import svg_picture
from .encoding import decode
from .endings import ENDINGS, FINISHED, REFUSALS, STOPS, refused
from .errors import JobError, RefusedError, Text, visible
from .files import (
    is_source, need_no_utf16, no_tree, read_bytes, read_either, read_over, read_script, read_section, read_source, shown,
    source_of_job, source_of_section, warn_of, write_bytes)
from .history import History, Part, read_part
from .limits import ASKED_BUDGET, ASKED_LINES, ASKED_PLACES, HOME, LEVELS, PROGRAM, PUBLIC, UNNAMED, Limits
from .listing import listing, preorder, record_text, script_lines
from .manual import DESCRIPTIONS, LANGUAGE, STATUS
from .monitor import history, outcome, rounds, stored, written
from .pictures import pictured, text_picture
from .probe import Variations, boards, probe_report, terminal_progress
from .rounds import rounds_lines
from .run import Run
from .streams import lost, warn
from .trace import trace
from .words import Words, natural, scan


def do_assemble(options):
    need_one_stdin(options.source, options.tree)
    if options.bare:
        return assemble_section(options)
    source = read_source(options.source, options.tree)
    job = source.job.encode()
    fault = check(job)
    if fault:
        warn_of(source, fault)
    write_bytes(options.output or job_path(options.source, ".job"), job)
    return 0


def assemble_section(options):
    source, section = read_script(options.source, read_over(options.tree))
    if source is None:
        raise JobError(f"{shown(options.source)}: this is no source; `{PROGRAM} list --bare` shows a bare section")
    fault = check_section(section, len(source.job.variables))
    if fault:
        warn_of(source, fault, "script")
    write_bytes(options.output or job_path(options.source, ".section"), section)
    return 0


def job_path(source, suffix):
    """Where a job or a section goes if nothing is said. A source is not written over, whatever its name."""
    if source == "-":
        return "-"
    path = str(Path(source).with_suffix(suffix))
    if Path(path) == Path(source):
        raise JobError(f"{shown(source)}: the {suffix[1:]} would be written over its source; say where with -o")
    return path


def do_list(options):
    if options.bare:
        return list_section(options)
    if options.tree:
        raise JobError("--tree is for a bare section's names, with --bare")
    data = read_bytes(options.job)
    if is_source(data):
        raise JobError(f"{shown(options.job)}: this is a source and no job; `{PROGRAM} assemble` makes one of it")
    fault = check(data)
    if fault:
        need_no_utf16(data, options.job)
        raise RefusedError(shown(options.job), fault)
    sys.stdout.write(listing(decode(data)))
    return 0


def list_section(options):
    need_one_stdin(options.job, options.tree)
    data, over = read_section(options.job), read_over(options.tree)
    source = source_of_section(data, options.job, over)
    print("\n".join(script_lines(source.job.records, over.names.variables)))
    return 0


def do_clean(options):
    _, answer = made_of_stored("clean", options, STORED, "writes zero in every byte that nobody reads")
    write_stored(options, answer, changed_rows(options.job, decode(answer.data), answer.changes))
    return 0


def do_arrange(options):
    data, answer = made_of_stored("arrange", options, UNORDERED, "lists the nodes the way they hang")
    write_stored(options, answer, moved_rows(options.job, decode(data)))
    return 0


def made_of_stored(name, options, edition, assembled):
    """A stored job, and what a program makes of it that keeps the rules of an edition."""
    data = read_bytes(options.job)
    if is_source(data):
        raise JobError(f"{shown(options.job)}: this is a source and no job; `{PROGRAM} assemble` {assembled}")
    answer = stored(name, data)
    if answer.refused:
        need_no_utf16(data, options.job)
        fault = check(data, edition)
        if fault is None or (fault.number, fault.index) != answer.refused:
            raise JobError(f"{shown(options.job)}: {name} refused this job with {answer.refused[0]} at {answer.refused[1]}, and this tool "
                           f"{'holds that it is ' + describe(fault) if fault else 'accepts it'}\n{name} is right. Please report this job.")
        raise RefusedError(shown(options.job), fault)
    return data, answer


def write_stored(options, answer, rows):
    """What was changed goes to standard error where the job goes to standard output."""
    write_bytes(options.output, answer.data)
    said = "\n".join(rows)
    if options.output == "-":
        warn(said)
    else:
        print(said)


def moved_rows(path, job):
    """Which nodes of a stored job have another number in the order of the tree."""
    moved = [(old, new) for new, (old, _) in enumerate(preorder(job.nodes)) if old != new]
    if not moved:
        return [f"{shown(path)}: the nodes were in order, and the job stays as it is"]
    return ([f"{shown(path)}: {len(moved):,} of {plural(len(job.nodes), 'node')} {'has' if len(moved) == 1 else 'have'} another number now"]
            + [f"  node {old} is node {new}" for old, new in sorted(moved)])


def changed_rows(path, job, changes):
    if not changes:
        return [f"{shown(path)}: the job was clean and stays as it is"]
    said = f"{plural(len(changes), 'byte')} that nobody reads {'was' if len(changes) == 1 else 'were'} not zero"
    return [f"{shown(path)}: {said}"] + [f"  {change_text(job, change)}" for change in changes]


def change_text(job, change):
    """A byte that was cleaned, in words."""
    section = ("variable", "node", "record")[change.section]
    what = f"{section} {change.index}"
    if section == "record":
        what += f" ({record_text(job.records[change.index], [f'v{index}' for index in range(len(job.variables))])})"
    return f"{what}: byte {byte_name(section, change.byte)} was {change.old}"


def do_picture(options):
    source, data = read_either(options.job)
    fault = check(data)
    if fault and (source is None or fault.number < 6):  # no tree can be drawn
        raise RefusedError(shown(options.job), fault)
    source = source or source_of_job(data, options.job)
    nodes = pictured(source)
    if options.svg:
        write_bytes(options.svg, svg_picture(nodes, source.path).encode())
    else:
        print("\n".join(text_picture(nodes, options.all)))
    return 0


def pages():
    """The help pages, by number."""
    return {int(path.stem): path for path in sorted((HOME / "docs" / "endings").glob("[0-9][0-9].md"))}


def do_explain(options):
    found = pages()
    if options.number is None:
        print("Ways a job can end:\n")
        print("   0  finished")
        for number in found:
            print(f"  {number:2}  {ENDINGS.get(number, '')}")
        print(f"\nA job or a script, or a tree that is to be written, is refused with {REFUSALS[0]} to {REFUSALS[-1]}.\n"
              f"A job or a script is stopped on its way with {STOPS[0]} to {STOPS[-1]}.\n"
              f"`{PROGRAM} explain 21` tells more.")
        return 0
    if options.number == 0:
        print("0 is no fault: the script came to its end.")
        return 0
    if options.number not in found:
        raise JobError(f"there is no ending {options.number}; `{PROGRAM} explain` lists them")
    try:
        sys.stdout.write(found[options.number].read_text(encoding="utf-8"))
    except UnicodeDecodeError:
        raise JobError(f"{found[options.number]}: this page is not UTF-8") from None
    return 0


def limits_of(options):
    """The limits, and whether any was asked for."""
    asked = {name: number for name in Limits._fields for number in [getattr(options, name)] if number is not None}
    return Limits(**asked), bool(asked)


def do_run(options):
    need_one_stdin(options.job, options.tree, *options.scripts)
    if options.save == "-":
        raise JobError("--save needs a file: standard output has the account of the run")
    if options.reader is not None and (options.scripts or options.save):
        raise JobError("--reader shows the lines of one job: it goes with no scripts behind it and no --save")
    source, data = read_either(options.job, options.tree)
    path = source.path if source else shown(options.job)
    limits, asked = limits_of(options)
    fault = check(data)
    fault = fault or check_limits(decode(data), limits)
    if options.scripts and not fault:
        return run_history(Part(path, source or source_of_job(data, options.job), data), options, limits)
    answer = outcome(data, limits, asked)
    if refused(answer.ending):
        print("\n".join(refusal_lines(path, source, answer, fault)) + (no_tree(source) if source else ""))
        if options.scripts:
            print(NO_SCRIPT)
        if options.save:
            print(NOT_SAVED)
        return 1
    if fault:
        raise JobError(f"{path}: the monitor ran this job, and this tool holds that it is {describe(fault)}\n"
                       "The monitor is right. Please report this job.")
    run = Run(source or source_of_job(data, options.job), limits)
    if options.trace:
        for row in trace(run):
            print(row)
        print()
    if options.reader is not None:
        return seen_by(options.reader, path, answer)
    print("\n".join(report(run.go(), answer, options.all)))
    save(options, data, [], limits)
    return 0 if answer.ending == FINISHED else 1


def seen_by(text, path, answer):
    """What a reader is handed of a run."""
    words = Words(scan(Text("--reader", [text]))[0]) if text.strip() else None
    reader = words.need_level() if words else PUBLIC
    if words:
        words.finish()
    print("\n".join(seen_lines(path, answer.lines, reader)))
    if answer.ending != FINISHED:
        print("\nThe run was stopped, and where a board ends may tell something: hand out none.")
    return 0 if answer.ending == FINISHED else 1


NO_SCRIPT = "\nThere is no tree for the scripts, so none was run."
NOT_SAVED = "\nThere is no tree to save, so no file was written."


def save(options, job, sections, limits):
    """Writes what stands in the end as a job, where that is asked for."""
    if not options.save:
        return
    data = written(job, sections, limits)
    fault = check(data)
    if fault:
        raise JobError(f"history wrote a job that this tool holds to be {describe(fault)}\nPlease report this job.")
    write_bytes(options.save, data)
    left = decode(data)
    print(f"\nsaved: {shown(options.save)}, a job of {plural(len(left.variables), 'variable')} and {plural(len(left.nodes), 'node')} without a script")


def run_history(first, options, limits):
    scripts = [read_part(path, first.source) for path in options.scripts]
    answers = history(first.data, [script.data for script in scripts], limits)
    past = History(limits)
    for number, (part, answer) in enumerate(zip([first] + scripts, answers)):
        if number:
            print(f"\nscript {number} of {len(scripts)}")
        for row in past.rows(part, answer, options.trace):
            print(row)
        if past.standing is None:
            print(NO_SCRIPT + (NOT_SAVED if options.save else ""))
            return 1
    print("\n".join(past.left(first.source.names.variables, options.all)))
    save(options, first.data, [script.data for script in scripts], limits)
    return 0 if past.finished else 1


def do_rounds(options):
    need_one_stdin(*options.jobs)
    parts = [read_either(path) for path in options.jobs]
    paths = [source.path if source else shown(path) for path, (source, _) in zip(options.jobs, parts)]
    newcomers, turns = rounds([data for _, data in parts], limits_of(options)[0])
    print("\n".join(rounds_lines(paths, newcomers, turns)))
    return 0 if not any(newcomers) and all(turn.outcome.ending == FINISHED for turn in turns if turn.outcome) else 1


def do_probe(options):
    need_one_stdin(options.job, options.tree)
    source, data = read_either(options.job, options.tree)
    limits, _ = limits_of(options)
    fault = check(data) or check_limits(decode(data), limits)
    if fault:
        raise RefusedError(source.path if source else shown(options.job), fault)
    source = source or source_of_job(data, options.job)
    variations = Variations(source.job, options.seed, limits.places)
    if not variations.vary():
        print(f"{source.path}: nothing in it belongs to the house, so there is one board")
        return 0
    found = boards(variations, options.count, limits, terminal_progress(options.count))
    print("\n".join(probe_report(source, variations, found, options.count)))
    return 0 if len(found) == 1 else 1


def need_one_stdin(*paths):
    if paths.count("-") > 1:
        raise JobError("standard input can be one of the files, not two of them")


# The command line.


def number_from(low, high):
    """A number of an option; of thousands of digits, too."""
    def number(text):
        value = natural(text) if text.isdigit() and text.isascii() else -1
        if not low <= value <= high:
            raise argparse.ArgumentTypeError(f"'{visible(text[:40])}' is no number from {low} to {high:,}")
        return value
    return number


def add_limits(one, tree=True):
    if tree:
        one.add_argument("--tree", metavar="TREE", help="variables and tree from this source or job, which has no script")
    one.add_argument("--budget", metavar="N", type=number_from(0, ASKED_BUDGET), help="steps; 100,000 if not given")
    one.add_argument("--places", metavar="N", type=number_from(0, ASKED_PLACES), help="nodes that there is room for; 512 if not given")
    one.add_argument("--lines", metavar="N", type=number_from(0, ASKED_LINES), help="board lines; 256 if not given")


class Parser(argparse.ArgumentParser):
    def print_help(self, file=None):
        """argparse says nothing where the help cannot be written."""
        (file or sys.stdout).write(self.format_help())


def parser():
    raw = argparse.RawDescriptionHelpFormatter
    whole = Parser(prog=PROGRAM, formatter_class=raw, epilog=LANGUAGE + "\n" + STATUS,
                   description="Writes, reads, draws, runs and probes jobs of the monitor.")
    verbs = whole.add_subparsers(dest="verb", metavar="VERB", required=True)

    def verb(name, short, function):
        one = verbs.add_parser(name, help=short, description=DESCRIPTIONS[name], formatter_class=raw, epilog=STATUS)
        one.set_defaults(function=function)
        return one

    one = verb("assemble", "source to job bytes", do_assemble)
    one.add_argument("source", metavar="SOURCE", help="a source, or - for standard input")
    one.add_argument("-o", "--output", metavar="JOB", help="where to write, - for standard output; SOURCE with .job or .section if not given")
    one.add_argument("--tree", metavar="TREE", help="variables and tree from this source or job, which has no script; "
                     "with --bare, whose variables the script uses: it may have a script")
    one.add_argument("--bare", action="store_true", help="a script alone, to the bare section of a follow-on script")
    one = verb("list", "job bytes to source, or what is wrong with them", do_list)
    one.add_argument("job", metavar="JOB", help="a job, or - for standard input")
    one.add_argument("--bare", action="store_true", help="JOB is the bare section of a follow-on script")
    one.add_argument("--tree", metavar="TREE", help="with --bare: take the names of variables from this source or job")
    one = verb("clean", "zero in every byte of a stored job that nobody reads", do_clean)
    one.add_argument("job", metavar="IN", help="a job, or - for standard input")
    one.add_argument("output", metavar="OUT", help="where to write the cleaned job, - for standard output; it may be IN")
    one = verb("arrange", "the nodes of a stored job listed the way they hang", do_arrange)
    one.add_argument("job", metavar="IN", help="a job, or - for standard input")
    one.add_argument("output", metavar="OUT", help="where to write the rearranged job, - for standard output; it may be IN")
    one = verb("picture", "the tree of a source or job", do_picture)
    one.add_argument("job", metavar="JOB|SOURCE", help="a job or a source, or - for standard input")
    kinds = one.add_mutually_exclusive_group()
    kinds.add_argument("--svg", metavar="FILE", help="write an SVG to FILE, - for standard output")
    kinds.add_argument("--text", action="store_true", help="print the tree in characters (this is the default)")
    one.add_argument("--all", action="store_true", help="leave nothing out of the text, however long a row is")
    one = verb("explain", "the help page of an ending", do_explain)
    one.add_argument("number", metavar="N", nargs="?", type=number_from(0, 999), help="an ending")
    one = verb("run", "run a source or job and explain the outcome", do_run)
    one.add_argument("job", metavar="SOURCE|JOB", help="a source or a job, or - for standard input")
    one.add_argument("scripts", metavar="SCRIPT", nargs="*", help="follow-on scripts, each over what the one before it left")
    add_limits(one)
    one.add_argument("--trace", action="store_true", help="first a line for each step")
    one.add_argument("--all", action="store_true", help="leave nothing out of the last tree, however long a row is")
    one.add_argument("--reader", metavar="PARTIES", help="show only the lines that these parties see, as alpina or alpina+buses; public for nobody's")
    one.add_argument("--save", metavar="FILE", help="write the variables and the tree that stand in the end to FILE, as a job without a script")
    one = verb("rounds", "run sources and jobs in turns and say who ends when", do_rounds)
    one.add_argument("jobs", metavar="SOURCE|JOB", nargs="+", help="sources and jobs in the order in which they come, one of them - for standard input")
    add_limits(one, tree=False)
    one = verb("probe", "run it with many house numbers and compare the boards", do_probe)
    one.add_argument("job", metavar="SOURCE|JOB", help="a source or a job, or - for standard input")
    add_limits(one)
    one.add_argument("--count", metavar="N", type=number_from(1, 1_000_000), default=1_000, help="runs; 1,000 if not given")
    one.add_argument("--seed", metavar="N", type=number_from(0, 2**31), default=1, help="of the numbers that are thrown; 1 if not given")
    return whole


def parsed(arguments):
    """The call. Scripts may stand behind options, too, where argparse leaves them over."""
    whole = parser()
    options, rest = whole.parse_known_args(arguments)
    if rest and (options.verb != "run" or any(text.startswith("-") and text != "-" for text in rest)):
        whole.error(f"unrecognized arguments: {' '.join(visible(text) for text in rest)}")
    if rest:
        options.scripts += rest
    return options


def act(arguments):
    try:
        LEVELS.use(UNNAMED[:1])
        options = parsed(arguments)
        return options.function(options)
    except SystemExit as leaving:  # the help, or a call that is no call
        return leaving.code
    except JobError as problem:
        warn(str(problem))
        return 1 if isinstance(problem, RefusedError) else 2


def main(arguments=None):
    """The exit status. Nothing that goes wrong ends in a traceback."""
    for stream in (sys.stdout, sys.stderr):
        stream.reconfigure(encoding="utf-8", errors="backslashreplace")
    try:
        status = act(arguments)
        sys.stdout.flush()
        return status
    except OSError as problem:  # files have their own errors, so this is standard output
        lost(problem)
    except Exception as problem:  # a mistake of ours; its place is what we need to mend it
        at = traceback.extract_tb(problem.__traceback__)[-1]
        warn(f"{PROGRAM}: a mistake in this tool, at {Path(at.filename).name} line {at.lineno}: {type(problem).__name__}: "
             f"{visible(str(problem))}\nPlease report this.")
    return 2
