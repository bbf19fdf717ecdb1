"""Whether the replies to lines are those that stand below them.

exchanges.py PROGRAM FILE: each exchange of FILE is given to `acewiki replay` in a wiki of its own. An exchange begins with a line
`== BUDGET WHAT`; then each line stands above its reply.
"""
import subprocess, sys


def exchanges(name):
    """What each shows, its budget, its lines and their replies."""
    found = []
    with open(name, encoding="utf-8") as it:
        for line in it.read().splitlines():
            if line.startswith("== "):
                _, budget, what = line.split(" ", 2)
                found.append((what, budget, []))
            elif found:
                found[-1][2].append(line)
    return [(what, budget, lines[::2], lines[1::2]) for what, budget, lines in found]


def main(program, name):
    read = exchanges(name)
    if not read:
        sys.exit(f"exchanges: {name} has none")
    for what, budget, lines, replies in read:
        given = "".join(line + "\n" for line in lines).encode()
        done = subprocess.run([program, "replay", "--budget", budget], input=given, stdout=subprocess.PIPE, stderr=subprocess.PIPE, timeout=120)
        came = done.stdout.decode().splitlines()
        if done.returncode != 0 or len(came) != len(lines):
            sys.exit(f"exchanges: {what}: status {done.returncode} and {len(came)} replies to {len(lines)} lines")
        for line, reply, told in zip(lines, replies, came):
            if reply != told:
                sys.exit(f"exchanges: {what}: to {line}\nexpected {reply}\ncame {told}")
    print(f"exchanges: {sum(len(lines) for _, _, lines, _ in read)} lines of {len(read)} exchanges have their replies")


main(*sys.argv[1:])
