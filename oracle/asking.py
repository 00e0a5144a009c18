"""Building the oracle, and asking it or our program: case lines in, answer lines out."""
import subprocess
from pathlib import Path

import lines

ROOT = Path(__file__).resolve().parent.parent
ORACLE = [str(ROOT / "target" / "oracle" / "oracle")]
REPLAY = ["bin/run", "replay"]  # how our program is started, in the repository's root
BATCH = 500  # cases for one start of it
NOT_REPLAYED = ["run"]  # held between the Rust and the model alone


def build():
    subprocess.run([ROOT / "oracle" / "extract"], check=True, stdout=subprocess.DEVNULL)
    subprocess.run(["rustc", "-O", "--edition", "2021", ROOT / "oracle" / "src" / "main.rs",
                    "-o", ORACLE[0]], check=True)


def ask(command, asked):
    """One answer line for each case line."""
    done = subprocess.run(command, input="\n".join(asked) + "\n", text=True, cwd=ROOT,
                          stdout=subprocess.PIPE, stderr=subprocess.PIPE)
    answers = done.stdout.splitlines()
    if len(answers) != len(asked):
        word = (done.stderr.strip().splitlines() or ["no word"])[-1]
        first = asked[min(len(answers), len(asked) - 1)]
        raise SystemExit(f"{command[0]} gave {len(answers)} answers to {len(asked)} cases; {word}; "
                         f"the first without one: {first}")
    return answers


def ask_oracle(asked):
    return ask(ORACLE, asked) if asked else []


def ask_replay(asked):
    return [lines.written_out(line) for at in range(0, len(asked), BATCH) for line in ask(REPLAY, asked[at:at + BATCH])]


def replay_knows(line):
    """Our program answers `bad` and a word to an operation that it does not have yet."""
    return not ask(REPLAY, [line])[0].startswith("bad")


def replay_stands():
    """Whether our program can be started at all."""
    try:
        return not replay_knows("no_such_operation")
    except (OSError, SystemExit):
        return False
