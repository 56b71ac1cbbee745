"""Builds six clients of the libraries: one is right and has to be built, five are wrong and the compiler has to refuse them.

    python3 tools/try_clients.py [--built]

The right client opens a cloud of the harbour universe, checks a draft of two orders, starts it, steps twice and finishes. The
wrong ones differ from it in one line each: one lets the ticket of the run lapse, one starts a draft that was not checked, one
makes the checked plan itself, one uses its ticket again after `finish` took it, and one makes running plan and ticket itself.
Each is a crate in a folder outside the repository, built over the libraries of this checkout, which `rt lib` first brings up to
date; with --built they are taken as `rt ci` has just built them in a clean clone. Printed is a line for each client, and what the
compiler said of one that is not as it must be. The status is 0 only if all six are.
"""
import argparse
import os
import re
import subprocess
import sys
import tempfile

ROOT = os.path.realpath(os.path.join(os.path.dirname(__file__), ".."))

RIGHT = """\
// Runs a script of two orders on a cloud of the harbour universe.
#![tactic(auto)]

use checking::check::check;
use checking::stages::Draft;
use cloud::Cloud;
use executor::steps::{finish, start, step};
use harbour::universe_file;
use lines::encode;
use model::order::Order;
use table::limits::Limits;
use universe::held::Universe;
use universe::reading::read;

// How far the run came, and the leases that it left; none where the file, a line, the draft or the start is refused.
pub fn run() -> Option<(usize, u64)> {
    let mut universe = Universe::least();
    read(&universe_file(), &mut universe).ok()?;
    let limits = Limits { instances: 256, bindings: 2048 };
    let mut cloud = Cloud::open(universe, limits, 0);
    let create = encode(Order::Create { instance: 0, kind: 0 }).ok()?;
    let change = encode(Order::Change { instance: 0, state: 1 }).ok()?;
    let lines = [create, change];
    let draft = Draft { lines: &lines };
    let plan = check(draft, &cloud).ok()?;
    let (mut running, mut ticket) = start(plan, &cloud).ok()?;
    for _ in 0..2 {
        let _ = step(&mut running, &mut ticket, &mut cloud);
    }
    let place = running.place();
    let leases = finish(running, ticket).leases;
    Some((place, leases))
}
"""

# Of each wrong client: its name, the line of the right one that it has another for, that other line, and the code of the errors
# that the compiler has to give, with how the message of each begins.
WRONG = [
    (
        "lapsed",
        "    let leases = finish(running, ticket).leases;\n",
        "    let leases = ticket.leases();\n",
        ("linear-value-let-go", ["`ticket` is let go where its block ends, and `Ticket` is not `Drop`"]),
    ),
    (
        "unchecked",
        "    let plan = check(draft, &cloud).ok()?;\n",
        "    let plan = draft;\n",
        ("mismatched-types", ["expected `CheckedPlan`, found `Draft`"]),
    ),
    (
        "own_plan",
        "    let plan = check(draft, &cloud).ok()?;\n",
        "    let plan = checking::stages::CheckedPlan { lines: &lines };\n",
        ("private-field", ["field `lines` of struct `CheckedPlan` is private"]),
    ),
    (
        "used_again",
        "    let leases = finish(running, ticket).leases;\n",
        "    let leases = finish(running, ticket).leases + ticket.leases();\n",
        ("borrow-e0382", ["borrow of moved value: `ticket`: note: `executor::stages::Ticket` does not derive `Copy`"]),
    ),
    (
        "own_stages",
        "    let (mut running, mut ticket) = start(plan, &cloud).ok()?;\n",
        "    let (mut running, mut ticket) = (executor::stages::RunningPlan { plan, place: 0 }, executor::stages::Ticket { made: 0, ended: 0 });\n",
        ("private-field", [
            "field `plan` of struct `RunningPlan` is private",
            "field `place` of struct `RunningPlan` is private",
            "field `made` of struct `Ticket` is private",
            "field `ended` of struct `Ticket` is private",
        ]),
    ),
]

ERROR = re.compile(r"error\[([a-z0-9-]+)\]: (.*)")


def crates():
    """The crates of the repository, each with those that it stands on."""
    with open(f"{ROOT}/crates.txt", encoding="utf-8") as file:
        lines = [line.split("#")[0].partition(":") for line in file]
    return {name.split()[0]: uses.split() for name, _, uses in lines if name.strip()}


def below(name, known):
    """The crates that a crate stands on, itself among them."""
    return {name}.union(*[below(it, known) for it in known[name]])


def bring_up_to_date(used, known):
    """Has rt build the libraries, and answers whether it could; those that stand as they should stay."""
    tops = [it for it in used if not any(it in below(other, known) for other in used if other != it)]
    for top in tops:
        ran = subprocess.run(["rt", "lib"], cwd=f"{ROOT}/crates/{top}", stdout=subprocess.PIPE, stderr=subprocess.STDOUT, text=True, errors="replace")
        if ran.returncode:
            print(f"{ran.stdout}the library {top} cannot be built")
            return False
    return True


def compiler_words(used, known):
    """What the compiler is told beside the client's own file: the libraries, and the logic of the kit."""
    kit = os.path.dirname(subprocess.run(["rt", "doc"], stdout=subprocess.PIPE, text=True, check=True).stdout.strip())
    words = ["--antt-project", f"{kit}/rattle/logic/antt-project.json", "--logic-built", f"{kit}/logic_built"]
    words += ["--extern", f"std={kit}/rlibs/std.rlib", "-L", f"dependency={kit}/rlibs"]
    for name in used:
        words += ["--extern", f"{name}={ROOT}/crates/{name}/out/rlib/{name}.rlib"]
    for name in sorted(set().union(*[below(it, known) for it in used])):
        words += ["-L", f"dependency={ROOT}/crates/{name}/out/rlib"]
    return words


def build(name, text, words, top):
    """Builds a client in a folder of its own below top: whether it was built, and what the compiler said."""
    folder = f"{top}/{name}"
    os.makedirs(f"{folder}/src")
    with open(f"{folder}/src/lib.rt", "w", encoding="utf-8") as file:
        file.write(text)
    command = ["rattle", "build", "--crate-name", f"{name}_client", "src/lib.rt", "--statements", *words, "-o", f"{folder}/client.rlib"]
    ran = subprocess.run(command, cwd=folder, stdout=subprocess.PIPE, stderr=subprocess.STDOUT, text=True, errors="replace")
    return ran.returncode == 0 and os.path.isdir(f"{folder}/client.rlib"), ran.stdout


def tell(name, is_right, what, said):
    """Prints the line of a client, and behind it what the compiler said where the client is not as it must be."""
    print(f"client {name}: {what}" if is_right else f"client {name}: {what}: WRONG\n{said}", flush=True)
    return is_right


def try_right(words, top):
    is_built, said = build("right", RIGHT, words, top)
    is_proved = re.search(r"^logic=proved functions=1 ", said, re.M) is not None
    return tell("right", is_built and is_proved, "proved and built" if is_built and is_proved else "not built", said)


def try_wrong(name, old, new, wanted, words, top):
    if RIGHT.count(old) != 1:
        return tell(name, False, "the line to replace stands not just once in the right client", old)
    is_built, said = build(name, RIGHT.replace(old, new), words, top)
    if is_built:
        return tell(name, False, "built", said)
    code, beginnings = wanted
    errors = ERROR.findall(said)
    is_so = len(errors) == len(beginnings) and all(
        it == code and message.startswith(beginning) for (it, message), beginning in zip(errors, beginnings))
    return tell(name, is_so, f"refused, error[{code}]" if is_so else f"not refused as it must be, with error[{code}]", said)


def main():
    options = argparse.ArgumentParser(description="Builds six clients of the libraries.")
    options.add_argument("--built", action="store_true", help="take the libraries as rt ci has just built them in a clean clone")
    is_built = options.parse_args().built
    known = crates()
    used = [it for it in sorted(set(re.findall(r"^use (\w+)::", RIGHT, re.M))) if it in known]
    if not is_built and not bring_up_to_date(used, known):
        return 1
    words = compiler_words(used, known)
    with tempfile.TemporaryDirectory(prefix="clients") as top:
        found = [try_wrong(*it, words, top) for it in WRONG] + [try_right(words, top)]
    return 0 if all(found) else 1


if __name__ == "__main__":
    sys.exit(main())
