"""Explains what is about files and the machine: absent or too long inputs, status 4 and status 5."""

import difflib
import errno
import os
import resource
import shutil
import stat

from layout import counted, wrapped

from found import MOST_BYTES, MOST_FILE

MIB = 1 << 20
SAID = {
    errno.EISDIR: "it is a folder, and a file is wanted", errno.ENOTDIR: "a file stands in place of a folder in it",
    errno.ELOOP: "it is a link that leads round in a loop", errno.ENAMETOOLONG: "the name is too long",
    errno.EACCES: "you have no right to it", errno.EPERM: "you have no right to it", errno.ENOSPC: "the disk is full",
    errno.EROFS: "the disk is read only", errno.EIO: "the disk fails", errno.ETXTBSY: "it is a program that runs",
}


def named(command, role):
    name = command.inputs.get(role, command.outputs.get(role))
    return f"the {role}, `{name}`,"


def absent(command, role):
    name = command.inputs[role]
    lines = wrapped(f"No file has the name of {named(command, role)} seen from {os.getcwd()}.")
    if not name:
        return wrapped(f"The name of the {role} is empty: is a variable of the shell unset?")
    if os.path.islink(name):
        return lines + wrapped(f"It is a link to `{os.readlink(name)}`, where nothing is.")
    folder = os.path.dirname(name) or "."
    if not os.path.isdir(folder):
        return lines + wrapped(f"Even its folder, `{folder}`, isn't there.")
    return lines + wrapped(close_names(folder, os.path.basename(name)))


def close_names(folder, name):
    """Files of the folder whose names are much like this one."""
    try:
        there = os.listdir(folder)
    except OSError:
        return "Its folder can't be listed."
    same = [one for one in there if one.lower() == name.lower() or one.split(".")[0] == name.split(".")[0]]
    close = list(dict.fromkeys(same + difflib.get_close_matches(name, there, 3, 0.6)))[:3]
    return (
        f"Its folder is there, and has {', '.join(f'`{one}`' for one in close)}." if close else "Its folder is there, with "
        f"{counted(len(there), 'other name')}."
    )


def too_long(command, role):
    name = command.inputs.get(role)
    most = MOST_BYTES.get(role, MOST_FILE)
    if name is None:
        return wrapped(f"What `record` would write as the {role} passes {most:,} bytes, so neither file is written: record fewer "
                       "requests at a time.")
    length = f"has {os.path.getsize(name):,} bytes" if os.path.isfile(name) else "is longer"
    return wrapped(f"{named(command, role)[0].upper()}{named(command, role)[1:]} {length}, and a {role} has at most {most:,}. Is it "
                   "another file, or one that goes on growing?")


# ---- status 4

def status_4(command):
    """The lines, and whether something was found."""
    for role, name in command.inputs.items():
        failure = reading_fails(name)
        if failure:
            return wrapped(f"Reading {named(command, role)} fails: {failure}."), True
        if failure is None:
            return wrapped(f"{named(command, role)[0].upper()}{named(command, role)[1:]} isn't there now, which gives a line "
                           f"(`{role}: absent`) and status 3, and not status 4."), False
    for role, name in command.outputs.items():
        failure = writing_fails(name)
        if failure:
            return wrapped(f"Writing {named(command, role)} fails: {failure}.") + after_outputs(command, role), True
    return wrapped("All inputs can be read now, and all outputs written: so it was the line itself, to a full disk, a closed pipe "
                   "or a closed standard output; or a disk that was full then.") + rooms(command), False


def reading_fails(name):
    """Why a file can't be read; nothing where it can be, and None where it isn't there."""
    try:
        with open(name, "rb") as file:
            if stat.S_ISREG(os.fstat(file.fileno()).st_mode):
                file.read(1)
        return ""
    except FileNotFoundError:
        return None
    except (OSError, ValueError) as failure:
        return said(name, failure)


def said(name, failure):
    """What the system says, with where on the way it is."""
    number = getattr(failure, "errno", None)
    told = SAID.get(number, str(failure))
    if number == errno.ENOTDIR:
        front = next((part for part in ways(name) if os.path.exists(part) and not os.path.isdir(part)), None)
        told = f"`{front}` is a file, and stands in place of a folder" if front else told
    if number in (errno.EACCES, errno.EPERM):
        front = next((part for part in ways(name)[:-1] if os.path.isdir(part) and not os.access(part, os.X_OK)), None)
        told = f"the folder `{front}` may not be entered" if front else told
    return f"{told} ({errno.errorcode.get(number, 'no name')})" if number else told


def ways(name):
    """The name's fronts, from the shortest on."""
    parts = name.split("/")
    return ["/".join(parts[: at + 1]) or "/" for at in range(len(parts))]


def writing_fails(name):
    """Why a file can't be written, as far as it can be seen without writing."""
    folder = os.path.dirname(name) or "."
    if not name:
        return "its name is empty"
    if os.path.isdir(name):
        return said(name, OSError(errno.EISDIR, ""))
    try:
        os.stat(folder)
    except FileNotFoundError:
        return f"its folder `{folder}` isn't there (ENOENT)"
    except OSError as failure:
        return said(name, failure)
    if not os.path.isdir(folder):
        return f"`{folder}` is a file, and stands in place of a folder (ENOTDIR)"
    if len(os.path.basename(name).encode()) > 255:
        return said(name, OSError(errno.ENAMETOOLONG, ""))
    try:
        there = os.stat(name)
    except FileNotFoundError:
        there = None
    except OSError as failure:
        return said(name, failure)
    if not os.access(folder, os.W_OK | os.X_OK) and not (there and os.access(name, os.W_OK)):
        return f"no file may be made in the folder `{folder}` (EACCES)"
    return "the disk is full (ENOSPC)" if not shutil.disk_usage(folder).free else ""


def after_outputs(command, role):
    if command.name == "record" and role == "report":
        return wrapped(f"The trace was written before it: `{command.outputs['trace']}` is new, and the report beside it, if there "
                       "is one, is an older one. Record again, or delete both.")
    return []


def rooms(command):
    """How much room the outputs' disks have."""
    folders = dict.fromkeys(os.path.dirname(name) or "." for name in command.outputs.values())
    return [f"    {folder}: {shutil.disk_usage(folder).free // MIB:,} MiB free" for folder in folders if os.path.isdir(folder)]


# ---- status 5

def status_5(command):
    """What memory and thread the command wants, and what there is."""
    lines = wrapped("The program ran out of memory, or had no thread to work in. It wants")
    lines.append("    a thread with 256 MiB of stack, of which only what a run touches is taken;")
    for role, name in command.inputs.items():
        if os.path.isfile(name):
            lines.append(f"    {os.path.getsize(name):,} bytes to hold the {role}, `{name}`, whole{MANY_TIMES.get(role, '')};")
    lines += wrapped("and memory for all that the files say. docs/speed.md has figures. What there is now:")
    memory = limit(resource.RLIMIT_AS, "memory of one program (ulimit -v)", MIB, "MiB")
    threads = limit(resource.RLIMIT_NPROC, "threads of one user (ulimit -u)", 1, "")
    lines += [f"    {what}" for what in (memory, threads, free_memory(), *group_limits())]
    tight = resource.getrlimit(resource.RLIMIT_AS)[0]
    if tight != resource.RLIM_INFINITY and tight < 512 * MIB:
        lines += wrapped(f"`ulimit -v` counts the 256 MiB of stack too: with {tight // MIB} MiB in all there is hardly any room for "
                         "files. Raise it.")
    return lines, True


MANY_TIMES = {"program": " (and many times its bytes for its tree)"}


def limit(which, what, unit, name):
    soft, _ = resource.getrlimit(which)
    return f"{what}: {'no limit' if soft == resource.RLIM_INFINITY else f'{soft // unit:,} {name}'.strip()}"


def free_memory():
    try:
        with open("/proc/meminfo", encoding="ascii") as file:
            rows = dict(line.split(":") for line in file)
        return f"free memory of the machine: {int(rows['MemAvailable'].split()[0]) // 1024:,} MiB"
    except (OSError, KeyError, ValueError):
        return "free memory of the machine: not known"


OF_GROUPS = [
    ("/sys/fs/cgroup/memory.max", "memory of this container", MIB), ("/sys/fs/cgroup/pids.max", "threads of this container", 1),
]


def group_limits():
    """The limits that a container sets, where it tells them."""
    told = []
    for path, what, unit in OF_GROUPS:
        try:
            with open(path, encoding="ascii") as file:
                value = file.read().strip()
        except OSError:
            continue
        if value.isdigit():
            told.append(f"{what}: {int(value) // unit:,}{' MiB' if unit == MIB else ''}")
    return told
