#!/usr/bin/env python3
"""bitrun_cases.py

Fails unless bitrun.sh and prove.sh behave well in cases that are easy to get wrong: a source that is edited during the proof, CDPATH, a
symbolic link, two runs at once, no `rt`, a source that is not proved, and an interrupt. Each case has a small copy of the repository and a
substitute for `rt`. The program that this builds prints the source from which it was built, so the script takes seconds.
"""
import os
import shutil
import subprocess
import sys
import tempfile
import time
from pathlib import Path

ROOT = Path(__file__).resolve().parent.parent

# A check and a build of a library refuse a broken source. A run says what it read, waits until the file `hold` is gone, and refuses a
# broken source.
STAND_IN = r'''#!/usr/bin/env bash
set -eu
if [ "$1" = check ] || [ "$1" = lib ]; then
    echo "checked a function, 1 of 2"
    while [ -e ../../hold_check ]; do sleep 0.02; done
    if grep -qs broken src/*.rt; then
        echo "rt: not proved: broken" >&2
        exit 1
    fi
    echo "logic=proved"
    exit 0
fi
[ "$1" = run ] && [ "$(basename "$PWD")" = bitrun ]
source="$(cat src/main.rt)"
echo "rt: reads $source" >&2
echo begun >>../../calls
while [ -e ../../hold ]; do sleep 0.02; done
if [ "$source" = broken ]; then
    echo "rt: not proved: $source" >&2
    exit 1
fi
mkdir -p out
printf '#!/bin/sh\necho "%s, given $(cat)"\n' "$source" >out/bitrun
chmod +x out/bitrun
exec ./out/bitrun
'''


class Run:
    """bitrun.sh on some input, while it runs."""

    def __init__(self, command, folder, environment):
        self.errors = tempfile.TemporaryFile('w+')
        self.process = subprocess.Popen(
            command, cwd=folder, env=environment, text=True,
            stdin=subprocess.PIPE, stdout=subprocess.PIPE, stderr=self.errors)
        self.process.stdin.write('input')
        self.process.stdin.close()
        self.process.stdin = None

    def said(self):
        """The lines of standard error so far."""
        self.errors.seek(0)
        return self.errors.read().splitlines()

    def says(self, word):
        """Waits until a line of standard error begins with the word, for at most 20 seconds."""
        end = time.monotonic() + 20
        while not any(line.startswith(word) for line in self.said()) and time.monotonic() < end:
            time.sleep(0.01)
        return self.said()

    def ended(self):
        """Status, output, and the lines of standard error."""
        try:
            output, _ = self.process.communicate(timeout=20)
        except subprocess.TimeoutExpired:
            self.process.kill()
            return None, '', self.said()
        return self.process.returncode, output, self.said()


class Clone:
    """A small copy of the repository, with a stand-in for `rt`."""

    def __init__(self, folder):
        self.root = folder / 'clone'
        (self.root / 'crates/bitrun/src').mkdir(parents=True)
        for script in ('bitrun.sh', 'prove.sh'):
            shutil.copy(ROOT / script, self.root)
        (self.root / 'tools').mkdir()
        shutil.copy(ROOT / 'tools/minutes.txt', self.root / 'tools')
        (self.root / 'crates/bitrun_text/src').mkdir(parents=True)
        (self.root / 'crates.txt').write_text('bitrun_text:\nbitrun: bitrun_text\n')
        self.source = self.root / 'crates/bitrun/src/main.rt'
        self.source.write_text('first')
        self.tools = folder / 'tools'
        self.tools.mkdir()
        (self.tools / 'rt').write_text(STAND_IN)
        (self.tools / 'rt').chmod(0o755)
        self.no_rt = folder / 'no_rt'
        self.no_rt.mkdir()
        for tool in os.listdir('/usr/bin') + os.listdir('/bin'):
            here = self.no_rt / tool
            if tool != 'rt' and not here.exists():
                here.symlink_to(shutil.which(tool, path='/usr/bin:/bin') or f'/usr/bin/{tool}')

    def start(self, command=None, with_rt=True, **variables):
        """bitrun.sh, begun."""
        path = f'{self.tools}:{self.no_rt}' if with_rt else str(self.no_rt)
        return Run(command or ['./bitrun.sh'], variables.pop('cwd', self.root), {'PATH': path, **variables})

    def hold(self):
        """From here on `rt` waits for `let_go`."""
        (self.root / 'hold').touch()

    def let_go(self):
        (self.root / 'hold').unlink()

    def calls(self):
        """How often `rt` was called."""
        file = self.root / 'calls'
        return len(file.read_text().splitlines()) if file.exists() else 0


def run(clone, *arguments, **options):
    return clone.start(*arguments, **options).ended()


def answers(result, source='first'):
    return result[:2] == (0, f'{source}, given input\n')


def refuses(result, word):
    status, output, errors = result
    return status == 1 and output == '' and bool(errors) and errors[-1].startswith('bitrun.sh: ') and word in errors[-1]


def progress_is_shown_as_it_goes(clone):
    clone.hold()
    begun = clone.start()
    # The lines come while `rt` still works.
    said = begun.says('rt: reads')
    clone.let_go()
    return answers(begun.ended()) and said[0].startswith('prove.sh: 2 crates') and said[-1] == 'rt: reads first'


def what_is_built_runs_at_once(clone):
    first, second = run(clone), run(clone, with_rt=False)
    return answers(first) and answers(second) and second[2] == [] and clone.calls() == 1


def an_edit_is_seen(clone):
    first = run(clone)
    clone.source.write_text('second')
    return answers(first) and answers(run(clone), 'second')


def an_edit_while_it_proves_is_seen(clone):
    clone.hold()
    begun = clone.start()
    begun.says('rt: reads')
    clone.source.write_text('second')
    clone.let_go()
    return answers(begun.ended()) and answers(run(clone), 'second')


def an_edit_that_is_undone_while_it_proves_is_seen(clone):
    clone.source.write_text('second')
    clone.hold()
    begun = clone.start()
    begun.says('rt: reads')
    clone.source.write_text('first')
    clone.let_go()
    return answers(begun.ended(), 'second') and answers(run(clone))


def an_older_source_put_in_its_place_is_seen(clone):
    other = clone.root / 'other'
    other.write_text('second')
    os.utime(other, (0, 0))
    first = run(clone)
    other.replace(clone.source)
    return answers(first) and answers(run(clone), 'second')


def a_source_that_went_is_seen(clone):
    more = clone.root / 'crates/bitrun/src/more.rt'
    more.touch()
    first = run(clone)
    more.unlink()
    return answers(first) and answers(run(clone)) and clone.calls() == 2


def an_edit_of_a_library_is_seen(clone):
    library = clone.root / 'crates/bitrun_text/src/lib.rt'
    library.write_text('first')
    first = run(clone)
    library.write_text('second')
    return answers(first) and answers(run(clone)) and clone.calls() == 2


def cdpath_leads_nowhere_else(clone):
    other = clone.root / 'elsewhere'
    (other / 'clone').mkdir(parents=True)
    return answers(run(clone, ['bash', 'clone/bitrun.sh'], cwd=clone.root.parent, CDPATH=f'{other}:.'))


def a_symbolic_link_is_followed(clone):
    link = clone.root.parent / 'link'
    link.symlink_to('clone/bitrun.sh')
    folder = clone.root.parent / 'folder'
    folder.symlink_to('clone')
    at_link = run(clone, [str(link)], cwd='/')
    return answers(at_link) and answers(run(clone, [str(folder / 'bitrun.sh')], cwd='/')) and clone.calls() == 1


def the_second_of_two_at_once_is_refused(clone):
    clone.hold()
    begun = clone.start()
    begun.says('rt: reads')
    second = run(clone)
    clone.let_go()
    return refuses(second, 'another') and answers(begun.ended()) and answers(run(clone)) and clone.calls() == 1


def without_rt_it_is_refused(clone):
    return refuses(run(clone, with_rt=False), 'no rt on the PATH')


def a_broken_source_is_refused(clone):
    clone.source.write_text('broken')
    broken = run(clone)
    clone.source.write_text('mended')
    return refuses(broken, 'not proved') and 'rt: not proved: broken' in broken[2] and answers(run(clone), 'mended')


def a_program_that_was_built_does_not_hide_a_broken_source(clone):
    first = run(clone)
    clone.source.write_text('broken')
    return answers(first) and refuses(run(clone), 'not proved') and refuses(run(clone), 'not proved')


def a_crate_that_is_not_there_is_refused(clone):
    status, _, errors = run(clone, ['./prove.sh', 'other'])
    return status == 1 and errors == ['prove.sh: crates.txt has no crate other']


def a_broken_library_is_named(clone):
    (clone.root / 'crates/bitrun_text/src/lib.rt').write_text('broken')
    status, _, errors = run(clone, ['./prove.sh', 'bitrun'])
    return status == 1 and 'rt: not proved: broken' in errors and errors[-1] == 'prove.sh: bitrun_text is not proved: its messages are above'


def an_interrupt_is_said(clone):
    (clone.root / 'hold_check').touch()
    begun = clone.start(['./prove.sh', 'bitrun'])
    time.sleep(1)
    begun.process.terminate()
    status, _, errors = begun.ended()
    return status == 130 and errors[-1].startswith('prove.sh: interrupted')


CASES = [
    progress_is_shown_as_it_goes,
    what_is_built_runs_at_once,
    an_edit_is_seen,
    an_edit_while_it_proves_is_seen,
    an_edit_that_is_undone_while_it_proves_is_seen,
    an_older_source_put_in_its_place_is_seen,
    a_source_that_went_is_seen,
    an_edit_of_a_library_is_seen,
    cdpath_leads_nowhere_else,
    a_symbolic_link_is_followed,
    the_second_of_two_at_once_is_refused,
    without_rt_it_is_refused,
    a_broken_source_is_refused,
    a_program_that_was_built_does_not_hide_a_broken_source,
    a_crate_that_is_not_there_is_refused,
    a_broken_library_is_named,
    an_interrupt_is_said,
]


def main():
    wrong = 0
    for case in CASES:
        with tempfile.TemporaryDirectory() as folder:
            if not case(Clone(Path(folder))):
                wrong += 1
                print(f'not so: {case.__name__.replace("_", " ")}')
    if not wrong:
        print(f'bitrun.sh and prove.sh: as they should be, in {len(CASES)} cases')
    return 1 if wrong else 0


if __name__ == '__main__':
    sys.exit(main())
