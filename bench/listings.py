"""What the scripts of this folder share: the built program, what it answers, and listings with another schedule."""
import os
import re
import shlex
import subprocess
import sys
import tempfile

HERE = os.path.dirname(os.path.abspath(__file__))
EXAMPLES = os.path.join(HERE, '..', 'examples')

MEASURING = '''
import os, subprocess, sys
with open(sys.argv[1], 'wb') as output:
    child = subprocess.Popen(sys.argv[2:], stdout=output)
_, status, used = os.wait4(child.pid, 0)
print(used.ru_maxrss * 1024, os.waitstatus_to_exitcode(status))
'''


def built_program():
    """The built program as a command; ends the script where there is none."""
    built = subprocess.run([os.path.join(HERE, '..', '.ci', 'built'), 'ztx_main'], stdout=subprocess.PIPE)
    if built.returncode != 0:
        sys.exit(built.returncode)
    return [built.stdout.decode().rstrip('\n')]


def command_of(text):
    """A command that is given as one argument: a program or a Python file, and perhaps its first words."""
    words = shlex.split(text)
    return words if os.access(words[0], os.X_OK) else [sys.executable] + words


def answer(command, words, text, seconds=600):
    """Exit status and standard output; the status is None where the command does not end."""
    try:
        done = subprocess.run(command + words, input=text, stdout=subprocess.PIPE, stderr=subprocess.PIPE,
                              timeout=seconds)
    except subprocess.TimeoutExpired:
        return None, b''
    return done.returncode, done.stdout


def memory_of(command, source):
    """The most bytes of resident memory that a command holds on a file; its exit status and standard output. What the process
    that makes it holds counts as its own, so a new and small one does."""
    with open(source, 'rb') as file, tempfile.NamedTemporaryFile() as output:
        made = subprocess.run([sys.executable, '-c', MEASURING, output.name, *command], stdin=file, stdout=subprocess.PIPE,
                              check=True)
        memory, status = map(int, made.stdout.split())
        return memory, status, output.read()


def read(path):
    with open(path, 'rb') as file:
        return file.read()


def lines_of(text, operations):
    """The places of the lines with one of these operations."""
    line_of = re.compile(rb'\S*\s+(%s)(\s|$)' % operations, re.IGNORECASE)
    return [at for at, line in enumerate(text.split(b'\n')) if line_of.match(line)]


def without(text, operations):
    """The listing without its lines of these operations."""
    gone = set(lines_of(text, operations))
    return b'\n'.join(line for at, line in enumerate(text.split(b'\n')) if at not in gone)


def before_end(text, more):
    """The listing with more lines before its END, or behind all lines where it has none."""
    lines = text.split(b'\n')
    end = min(lines_of(text, b'END') + [len(lines)])
    return b'\n'.join(lines[:end] + more + lines[end:])


def schedule_of(report):
    """The lines of the schedule that a report prints."""
    return [line for line in report.split(b'\n') if line.startswith(b' SCHED ')]


def with_schedule(text, report):
    """The listing with the schedule that a report prints, in place of its own."""
    return before_end(without(text, b'SCHED'), schedule_of(report))
