"""The commands of commands.txt: how many words may follow each, and which of its words name files that it writes."""
import os
import sysconfig

# at the top of the checkout; or among the data of an installed package, which pip's --target puts beside it
_HERE = os.path.dirname(os.path.realpath(__file__))
_DATA = [os.path.join(base, "share", "nuddrwyn") for base in (os.path.dirname(_HERE), sysconfig.get_path("data"))]
_TABLES = [os.path.join(place, "commands.txt") for place in (os.path.dirname(os.path.dirname(_HERE)), *_DATA)]
TABLE = next(filter(os.path.exists, _TABLES), _TABLES[0])

with open(TABLE, encoding="utf-8") as lines:
    ARGUMENTS = {line.split()[0]: line.split()[1:] for line in lines if not line.startswith("#")}
COUNTS = {command: range(sum(not word.startswith("[") for word in words), len(words) + 1) for command, words in ARGUMENTS.items()}
OUTPUTS = {command: [at for at, word in enumerate(words, 1) if word.startswith(">")] for command, words in ARGUMENTS.items() if any(word.startswith(">") for word in words)}
