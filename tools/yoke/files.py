"""Sources and jobs in files and on the standard streams."""

import sys
from pathlib import Path

from .account import named_fault
from .checks import check, check_section, plural
from .encoding import decode, decode_script, encode_script
from .endings import ending_text
from .errors import JobError, RefusedError, Text, quoted, visible
from .language import parse, parse_script_text, parse_text, parse_tree_text, unknown_tree
from .limits import LEVELS, MAX_PARTIES, PROGRAM
from .listing import listing, script_lines
from .streams import warn
from .words import decoded

MOST = 2**20  # bytes; 23,048 is the most of a job, and a source of this size makes none


def shown(path):
    return "<standard input>" if path == "-" else visible(path)


def read_bytes(path):
    try:
        if path == "-":
            data = sys.stdin.buffer.read(MOST + 1)
        else:
            with open(path, "rb") as file:
                data = file.read(MOST + 1)
    except OSError as problem:
        raise JobError(f"{shown(path)}: {problem.strerror}") from None
    if len(data) > MOST:
        raise JobError(f"{shown(path)}: more than {MOST:,} bytes, which is neither a job nor a source")
    return data


def write_bytes(path, data):
    if path == "-":
        sys.stdout.buffer.write(data)
        sys.stdout.buffer.flush()
        return
    try:
        Path(path).write_bytes(data)
    except OSError as problem:
        raise JobError(f"{shown(path)}: {problem.strerror}") from None


def is_source(data):
    """By its content: an accepted job has a zero byte, and a source has none. An empty file is a job without bytes."""
    return bool(data) and b"\0" not in data


def need_no_utf16(data, path):
    """A source in UTF-16 has zero bytes, and no accepted job starts so."""
    if data[:2] in (b"\xff\xfe", b"\xfe\xff"):
        raise JobError(f"{shown(path)}: this is UTF-16; save the source as UTF-8")


def source_of_job(data, path):
    """An accepted job as the source that `list` would print."""
    fault = check(data)
    if fault:
        raise RefusedError(shown(path), fault)
    return parse(listing(decode(data)), f"list of {shown(path)}")


def read_tree(path):
    """Variables and a tree, from a source or a job without a script."""
    data = read_bytes(path)
    need_no_utf16(data, path)
    if is_source(data):
        return parse_tree_text(decoded(data, shown(path)))
    source = source_of_job(data, path)
    if source.job.records:
        raise JobError(f"{shown(path)}: a tree in a file of its own has no script, and this job has one of "
                       f"{plural(len(source.job.records), 'record')}")
    return source


def read_source(path, tree_path=None):
    """A source, over the tree of another file where one is named."""
    data = read_bytes(path)
    need_no_utf16(data, path)
    if not is_source(data):
        raise JobError(f"{shown(path)}: this is a job and no source; `{PROGRAM} list` shows it")
    return parse_text(decoded(data, shown(path)), read_tree(tree_path) if tree_path else None)


def read_either(path, tree_path=None):
    """A source or None, and the bytes of the job."""
    data = read_bytes(path)
    need_no_utf16(data, path)
    if not is_source(data):
        if tree_path:
            raise JobError(f"{shown(path)}: this is a job, which has a tree; --tree is for a script's source")
        return None, data
    source = parse_text(decoded(data, shown(path)), read_tree(tree_path) if tree_path else None)
    return source, source.job.encode()


# Follow-on scripts: a source with a script section alone, or a bare section of bytes.


def read_over(path):
    """What a follow-on script runs over, for the names of its variables: a source or a job."""
    if path is None:
        return unknown_tree()
    source, data = read_either(path)
    return source or source_of_job(data, path)


def read_section(path):
    """A bare section."""
    data = read_bytes(path)
    need_no_utf16(data, path)
    if is_source(data):
        raise JobError(f"{shown(path)}: this is a source and no bare section; `{PROGRAM} assemble --bare` makes one of it")
    need_no_job(data, path)
    return data


def need_no_job(data, path):
    """What ends in a trailer that fits is a job: the numbers of a section's last record are hardly ever such."""
    fault = check(data)
    if fault is None or fault.number > 3:
        raise JobError(f"{shown(path)}: this is a job; a follow-on script is a script section alone, in a source or as bytes")


def read_script(path, over):
    """A follow-on script as a source or None, and as a bare section."""
    data = read_bytes(path)
    need_no_utf16(data, path)
    if not is_source(data):
        need_no_job(data, path)
        return None, data
    source = parse_script_text(decoded(data, shown(path)), over)
    return source, encode_script(source.job.records)


def source_of_section(data, path, over):
    """A bare section that is accepted, as the source that `list --bare` would print."""
    fault = check_section(data, len(over.job.variables))
    if fault:
        raise RefusedError(shown(path), fault)
    known = LEVELS.names
    LEVELS.use([LEVELS.party(index) for index in range(MAX_PARTIES)])  # its sets may have parties that the tree's source does not name
    try:
        return parse_script_text(Text(f"list of {shown(path)}", script_lines(decode_script(data), over.names.variables)), over)
    finally:
        LEVELS.use(known)


def warn_of(source, fault, what="job"):
    """A source may hold a job or a script that the monitor turns back; the author should know."""
    place = source.place_of(fault)
    said = f"warning: the monitor refuses this {what} with {ending_text(fault.number)}: {named_fault(source, fault)}"
    if place:
        warn("\n".join([f"{place}: {said}", *quoted(place)]))
    else:
        warn(f"{source.path}: {said}{no_tree(source)}")


def no_tree(source):
    """A script of its own needs a tree, which it takes from another file or finds standing."""
    if source.job.nodes or source.over:
        return ""
    return "\nA script without a tree takes one from another file: --tree TREE"
