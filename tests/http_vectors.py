"""A recorded conversation over HTTP, byte for byte.

http_vectors.py PROGRAM FOLDER NAME [record]: FOLDER has three files. NAME.input has the lines that the program starts with.
NAME.jsonl has a connection a row, each with the bytes that it sends and those that it gets, a character for each byte; where it
gets nothing, the connection is ended. NAME.journal is what the program writes. With `record` the rows get what came, and so does
the journal; then each difference is to be read against docs/HTTP.md.
"""
import json, pathlib, socket, sys, time
from running import Wiki, read_all


def answered(wiki, row):
    """What comes for the bytes of a row."""
    with wiki.connect(timeout=60) as link:
        link.sendall(row["send"].encode("latin-1"))
        if not row["gets"]:
            time.sleep(0.01)
            link.shutdown(socket.SHUT_WR)
        return read_all(link).decode("latin-1")


def main(program, folder, name, *more):
    files = {kind: pathlib.Path(folder) / f"{name}.{kind}" for kind in ("input", "jsonl", "journal")}
    rows = [json.loads(line) for line in files["jsonl"].read_text().splitlines()]
    wiki = Wiki(program, files["input"].read_bytes())
    got = [answered(wiki, row) for row in rows]
    journal = wiki.kill()
    if more == ("record",):
        files["jsonl"].write_text("".join(json.dumps({"send": row["send"], "gets": it}) + "\n" for row, it in zip(rows, got)))
        files["journal"].write_bytes(journal)
    for number, (row, it) in enumerate(zip(rows, got), 1):
        if it != row["gets"] and not more:
            raise SystemExit(f"http_vectors: row {number} sends\n{row['send'][:2000]!r}\nexpected\n{row['gets']!r}\ncame\n{it!r}")
    if journal != files["journal"].read_bytes():
        raise SystemExit(f"http_vectors: the journal is\n{journal.decode()}\nand not that of {files['journal']}")
    print(f"http_vectors: {len(rows)} connections and the journal as they should be")


main(*sys.argv[1:])
