"""Recorded runs of a command: files with one object of JSON a line, of `words`, `input` and `output`, where each character is one byte."""
import json, os


def compare(command, files, ran, expect):
    """Runs what each line of the files has, by `ran` of its words and input, and hands it to `expect` with its words and output."""
    for name in files:
        compared = 0
        with open(name, encoding="utf-8") as lines:
            for line in lines:
                row = json.loads(line)
                expect(row["words"], ran(row["words"], row["input"].encode("latin-1")), row["output"].encode("latin-1"))
                compared += 1
        print(f"{command}: {compared} recorded runs of {os.path.basename(name)} are the same")
